//! The listing program's lines: what it reads, what it refuses, and where.

use crate::support::{random_trace, Trace};
use second::calls::{self, Size};
use second::classes::classes;
use second::listing::{list, DEFAULT_STEPS};
use second::logger::FRAME_BYTES;
use second::long_lines::{self, READ};
use second::picture::MOST_CAPTION;
use second::random::Random;
use second::rule::{worst_error, Edition, Kind, TICKS};

fn listed(input: &str) -> String {
    String::from_utf8(list(input.as_bytes()).unwrap()).unwrap()
}

fn listing_of(trace: &Trace) -> String {
    let buckets = trace.buckets();
    let mut lines = String::new();
    for bucket in &buckets {
        let level = (bucket.least + bucket.largest) >> 1;
        lines += &format!(
            "{} {} {} {} {level}\n",
            bucket.start, bucket.count, bucket.least, bucket.largest
        );
    }
    let worst = worst_error(&buckets);
    lines + &format!("total {} {} {worst}\n", trace.state.readings, buckets.len())
}

#[test]
fn what_is_read() {
    for (input, output) in [
        ("", "total 0 0 0\n"),
        ("steps 1\n", "total 0 0 0\n"),
        ("late 1\n", "total 0 0 0\n"),
        ("steps 256\nlate 256", "total 0 0 0\n"),
        ("steps 0000000002\n7", "0 1 7 7 7\ntotal 1 1 0\n"),
        ("7\n", "0 1 7 7 7\ntotal 1 1 0\n"),
        ("-0\n", "0 1 0 0 0\ntotal 1 1 0\n"),
        ("-0000000007", "0 1 -7 -7 -7\ntotal 1 1 0\n"),
        ("late 1\n-0 5\n", "0 1 5 5 5\ntotal 1 1 0\n"),
        (
            "late 1\n-0000000000 -0000000007\n",
            "0 1 -7 -7 -7\ntotal 1 1 0\n",
        ),
        ("late 1\n16777215 5\n", "16777215 1 5 5 5\ntotal 1 1 0\n"),
        (
            "steps 1\n-2147483648\n2147483647\n-2147483648\n",
            "0 2 -2147483648 2147483647 -1\n\
             2 1 -2147483648 -2147483648 -2147483648\n\
             total 3 2 2147483648\n",
        ),
    ] {
        assert_eq!(listed(input), output, "{input:?}");
    }
}

#[test]
fn what_is_refused() {
    for (input, output) in [
        ("steps 0\n", "refused 1 1\n"),
        ("steps -0\n", "refused 1 1\n"),
        ("steps 257\nlate 300\n", "refused 1 1\n"),
        ("steps 4294967295\n", "refused 1 1\n"),
        ("steps 4294967296\n", "refused 1 14\n"),
        ("steps -1\n", "refused 1 14\n"),
        ("late 0\n", "refused 1 2\n"),
        ("steps 1\nlate 300\nx\n", "refused 2 2\n"),
        ("late 1\n16777216 0\n", "refused 2 6\n"),
        ("late 1\n4294967295 0\n", "refused 2 6\n"),
        ("late 1\n4294967296 0\n", "refused 2 14\n"),
        ("late 1\n-1 0\n", "refused 2 14\n"),
        ("late 1\n0 1\n2 1\n", "refused 3 9\n"),
        ("late 1\n0 1\n0 1\n", "refused 3 11\n"),
        ("late 1\n5\n", "refused 2 14\n"),
        ("late 1\nlate 1\n", "refused 2 14\n"),
        ("late 1\nsteps 1\n", "refused 2 14\n"),
        ("steps 1\nsteps 1\n", "refused 2 14\n"),
        ("5\nsteps 1\n", "refused 2 14\n"),
        ("5\nlate 1\n", "refused 2 14\n"),
        ("steps 1\n5\n0 5\n", "refused 3 14\n"),
        ("\n", "refused 1 14\n"),
        ("5\n\n", "refused 2 14\n"),
        ("5\r\n", "refused 1 14\n"),
        (" 5\n", "refused 1 14\n"),
        ("5 \n", "refused 1 14\n"),
        ("late 1\n0  5\n", "refused 2 14\n"),
        ("late 1\n0 5 5\n", "refused 2 14\n"),
        ("late 1\n0\t5\n", "refused 2 14\n"),
        ("steps\n", "refused 1 14\n"),
        ("steps \n", "refused 1 14\n"),
        ("steps 1 1\n", "refused 1 14\n"),
        ("Steps 1\n", "refused 1 14\n"),
        ("-\n", "refused 1 14\n"),
        ("--1\n", "refused 1 14\n"),
        ("+1\n", "refused 1 14\n"),
        ("1.0\n", "refused 1 14\n"),
        ("00000000001\n", "refused 1 14\n"),
        ("2147483647\n2147483648\n", "refused 2 14\n"),
        ("-2147483648\n-2147483649\n", "refused 2 14\n"),
        ("9999999999\n", "refused 1 14\n"),
    ] {
        assert_eq!(listed(input), output, "{input:?}");
    }
    assert_eq!(list(&b"1\n\xff\n"[..]).unwrap(), b"refused 2 14\n");
    assert_eq!(list(&b"1\0\n"[..]).unwrap(), b"refused 1 14\n");
}

#[test]
fn long_lines_are_refused_once() {
    for length in [63, 64, 65, 66, 200, 100_000] {
        let long = "1".repeat(length);
        assert_eq!(listed(&format!("{long}\n5\n")), "refused 1 14\n");
        assert_eq!(listed(&format!("5\n{long}")), "refused 2 14\n");
    }
}

#[test]
fn no_tick_is_left_after_the_last() {
    let lines = String::from("steps 1\n") + &"0\n".repeat(16_777_216);
    let all = list(lines.as_bytes()).unwrap();
    assert!(all.ends_with(b"total 16777216 2 0\n"));
    let one_more = list(format!("{lines}0\n").as_bytes()).unwrap();
    assert_eq!(one_more, b"refused 16777218 6\n");
}

#[test]
fn the_listing_shows_what_the_calls_keep() {
    let mut random = Random::new(51);
    for _ in 0..2_000 {
        let settings = random_trace(&mut random).state;
        let steps = settings.base.div_ceil(2);
        let mut trace = Trace::open(settings.kind, Size::Steps(steps), settings.gaps);
        let mut input = format!("steps {steps}\n");
        if settings.kind == Kind::Late {
            input += &format!("late {}\n", settings.gaps);
        }
        for line in 0..random.below(60) {
            let value = random.between(-50, 50) as i32;
            let tick = random.below(2_000) as u32;
            match settings.kind {
                Kind::InOrder => {
                    trace.next(value).unwrap();
                    input += &format!("{value}\n");
                }
                Kind::Late => {
                    // Most ticks go up by one, so that runs grow and close.
                    let tick = if line % 9 == 8 { tick } else { line as u32 };
                    if trace.late(tick, value).is_ok() {
                        input += &format!("{tick} {value}\n");
                    }
                }
            }
        }
        assert_eq!(listed(&input), listing_of(&trace));
    }
}

#[test]
fn the_sample_shows_its_two_reading_drop() {
    let output = listed(&second::sample::shipped());
    assert!(output.contains("\n1500 2 7383 7414 7398\n"));
    assert!(output.ends_with("total 2400 64 18\n"));
}

const HEADER: &str = include_str!("../../../include/ndezulangi.h");

/// The names and numbers that lines of the header define, in their order. What a line says behind its number is left out.
fn defined(lines: &'static str) -> Vec<(&'static str, u64)> {
    let mut defined = Vec::new();
    for line in lines.lines() {
        let mut words = line.split_whitespace();
        if words.next() != Some("#define") {
            continue;
        }
        let name = words.next().and_then(|name| name.strip_prefix("NDZ_"));
        let number = words.next().and_then(|number| number.parse().ok());
        defined.extend(name.zip(number));
    }
    defined
}

/// All refusals of the header and no others; it has none for a line, which no call refuses.
#[test]
fn the_refusals_are_the_header_s() {
    let (_, block) = HEADER.split_once("/* Refusals. */\n").unwrap();
    let (block, _) = block.split_once("\n\n").unwrap();
    let expected = [
        ("STEPS", calls::STEPS),
        ("GAPS", calls::GAPS),
        ("ROOM", calls::ROOM),
        ("UNSOUND", calls::UNSOUND),
        ("KIND", calls::KIND),
        ("TICK", calls::TICK),
        ("LENGTH", calls::LENGTH),
        ("RECORD", calls::RECORD),
        ("RUNS", calls::RUNS),
        ("OVERFULL", calls::OVERFULL),
        ("TAKEN", calls::TAKEN),
        ("ABSENT", calls::ABSENT),
        ("SHORT", calls::SHORT),
        ("CAPTION", calls::CAPTION),
        ("EDITION", calls::EDITION),
    ]
    .map(|(name, number)| (name, u64::from(number)));
    assert_eq!(defined(block), expected);
    assert_eq!(block.lines().count(), expected.len());
    let numbers: Vec<u64> = expected.iter().map(|&(_, number)| number).collect();
    let all = 1..=u64::from(calls::LAST_CALL_REFUSAL);
    let line = u64::from(calls::LINE);
    assert!(all.filter(|&number| number != line).eq(numbers));
}

/// Each of them once.
#[test]
fn the_editions_and_the_limits_are_the_header_s() {
    let defined = defined(HEADER);
    for (name, number) in [
        ("IN_ORDER", Kind::InOrder as u64),
        ("LATE", Kind::Late as u64),
        ("FIRST_EDITION", Edition::First.number()),
        ("SECOND_EDITION", Edition::Second.number()),
        ("DEFAULT_STEPS", DEFAULT_STEPS),
        ("MOST_STEPS", calls::MOST_STEPS),
        ("MOST_BASE", calls::MOST_BASE),
        ("MOST_GAPS", calls::MOST_GAPS),
        ("LAST_TICK", TICKS - 1),
        ("MOST_BUCKETS", calls::MOST_BASE + calls::MOST_GAPS),
        ("SLOT", calls::SLOT as u64),
        ("RECORD_BYTES", calls::RECORD_BYTES as u64),
        ("FRAME_BYTES", FRAME_BYTES as u64),
        ("MOST_CAPTION", MOST_CAPTION as u64),
    ] {
        let of_name = defined.iter().filter(|(of, _)| *of == name);
        let numbers: Vec<u64> = of_name.map(|&(_, number)| number).collect();
        assert_eq!(numbers, [number], "{name}");
    }
}

/// The number of the header is the one that the listing goes by where no line names it.
#[test]
fn the_default_is_the_header_s() {
    assert!(defined(HEADER).contains(&("DEFAULT_STEPS", 64)));
    for readings in 1..300 {
        let lines: String = (0..readings)
            .map(|tick| format!("{}\n", tick * tick))
            .collect();
        let late: String = (0..readings)
            .map(|tick| format!("{tick} {}\n", tick * tick))
            .collect();
        let rows = |input: &str| listed(input).lines().count() as u64 - 1;
        assert_eq!(rows(&lines), readings.min(2 * 64));
        assert_eq!(rows(&format!("late 1\n{late}")), readings.min(2 * 64 + 1));
        assert_eq!(listed(&format!("steps 64\n{lines}")), listed(&lines));
        assert_eq!(rows(&format!("steps 32\n{lines}")), readings.min(2 * 32));
    }
}

#[test]
fn classes_are_read_off_the_input() {
    let quiet = "5\n".repeat(100_000);
    let nines = "9".repeat(64);
    for (input, found) in [
        ("", "whole"),
        ("steps 1\n1\n2\n", "whole"),
        (
            "steps 1\n1\n2\n3\n",
            "whole, merged: steps 1, row of a positive odd sum",
        ),
        (
            "steps 1\n-3\n0\n9\n",
            "whole, merged: steps 1, row of a negative odd sum",
        ),
        ("steps 1\n-3\n1\n9\n", "whole, merged: steps 1"),
        (
            "steps 1\nlate 1\n0 1\n1 2\n2 4\n3 4",
            "last line without a line feed, whole, merged: steps 1, late 1",
        ),
        ("1\n-2\n", "whole, no steps, in order: negative readings"),
        (
            "late 1\n0 1\n1 -2\n",
            "whole, no steps, late: negative readings",
        ),
        ("bad", "last line without a line feed, refused 14"),
        (
            &format!("5\n{nines}\n"),
            "refused 14, refused line of 64 bytes",
        ),
        (
            &format!("{}{nines}9\n", &quiet[..65_536]),
            "refused 14, refused line of 65 bytes, refused line of 65 bytes where a read ends",
        ),
        (
            &format!("{}-2147483648\n", &quiet[..65_530]),
            "whole, no steps, in order: more than 150 readings, no steps, in order: another listing by 32, \
             no steps, in order: another listing by 63, no steps, in order: another listing by 65, \
             no steps, in order: negative readings, line of 11 bytes cut at 6",
        ),
        (
            &format!("{quiet}6 6\n"),
            "more than 200000 bytes, refused 14, refused after 65536 bytes",
        ),
    ] {
        assert_eq!(classes(input.as_bytes()).unwrap().join(", "), found);
    }
}

#[test]
fn a_byte_lost_or_doubled_where_a_read_ends_shows() {
    for number in 0..15 {
        let input = long_lines::cut(number);
        let output = list(&input[..]).unwrap();
        for end in [READ, 2 * READ, 3 * READ] {
            for place in [end - 1, end] {
                let mut lost = input.clone();
                lost.remove(place);
                assert_ne!(list(&lost[..]).unwrap(), output);
                let mut doubled = input.clone();
                doubled.insert(place, input[place]);
                assert_ne!(list(&doubled[..]).unwrap(), output);
            }
        }
    }
}
