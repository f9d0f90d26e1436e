//! Where a trace first goes over a bar: worked by hand, and against a look at every tick of the range.

use crate::support::{loaded, random_trace, random_value, Trace};
use second::calls::{self, Size::Steps};
use second::random::Random;
use second::rule::{Bucket, Kind, TICKS};

const LAST: u32 = TICKS as u32 - 1;

/// Ticks 5 and 6 are missing.
fn worked_late() -> Trace {
    loaded(
        Kind::Late,
        Steps(1),
        2,
        &[(0, 3, -1, 4), (3, 2, 8, 9), (7, 2, 2, 9)],
    )
}

fn worked_in_order() -> Trace {
    loaded(
        Kind::InOrder,
        Steps(2),
        0,
        &[(0, 3, -1, 4), (3, 2, 8, 9), (5, 2, 2, 9)],
    )
}

fn asked(trace: &Trace, first: u32, last: u32, bar: i32) -> Option<(u64, u64)> {
    calls::first_over(trace.state, &trace.room, first, last, bar).unwrap()
}

#[test]
fn the_first_bucket_of_the_range_that_is_over() {
    let trace = worked_late();
    for (first, last, bar, hit) in [
        (0, 8, 4, (0, 0)),
        (0, 8, 5, (1, 3)),
        (0, 8, 9, (1, 3)),
        (0, LAST, i32::MIN, (0, 0)),
        // Partly in the range, with the largest reading of the whole bucket.
        (2, 2, 4, (0, 0)),
        (2, 3, 4, (0, 0)),
        (4, 8, 9, (1, 3)),
        (0, 3, 9, (1, 3)),
        // From a missing tick on; the index counts the buckets before the range too.
        (5, 8, 9, (2, 7)),
        (6, 7, 9, (2, 7)),
        (8, LAST, 9, (2, 7)),
    ] {
        let answer = asked(&trace, first, last, bar);
        assert_eq!(answer, Some(hit), "{first} {last} {bar}");
    }
    assert_eq!(asked(&worked_in_order(), 5, 5, 9), Some((2, 5)));
    assert_eq!(asked(&worked_in_order(), 4, 6, 9), Some((1, 3)));
}

#[test]
fn no_bucket_of_the_range_is_over() {
    let trace = worked_late();
    for (first, last, bar) in [
        (0, 8, 10),
        (0, LAST, i32::MAX),
        (0, 2, 5),
        // Missing ticks, and ticks above those held.
        (5, 6, i32::MIN),
        (5, 5, i32::MIN),
        (9, LAST, i32::MIN),
        (LAST, LAST, i32::MIN),
        // Empty ranges, in one bucket and over all.
        (2, 1, i32::MIN),
        (8, 7, 9),
        (8, 0, i32::MIN),
        (LAST, 0, i32::MIN),
    ] {
        assert_eq!(
            asked(&trace, first, last, bar),
            None,
            "{first} {last} {bar}"
        );
    }
    for empty in [
        Trace::open(Kind::InOrder, Steps(1), 0),
        Trace::open(Kind::Late, Steps(1), 1),
    ] {
        assert_eq!(asked(&empty, 0, LAST, i32::MIN), None);
    }
}

#[test]
fn readings_at_the_ends_of_their_range() {
    let trace = Trace::in_order(Steps(2), &[i32::MIN, i32::MAX, i32::MIN]);
    assert_eq!(asked(&trace, 0, 2, i32::MIN), Some((0, 0)));
    assert_eq!(asked(&trace, 0, 2, i32::MIN + 1), Some((1, 1)));
    assert_eq!(asked(&trace, 0, 2, i32::MAX), Some((1, 1)));
    assert_eq!(asked(&trace, 2, 2, i32::MIN), Some((2, 2)));
    assert_eq!(asked(&trace, 2, 2, i32::MIN + 1), None);
}

#[test]
fn the_last_tick_of_all() {
    let records = [(0, 1, 7, 7), (LAST - 1, 2, 3, 5)];
    let trace = loaded(Kind::Late, Steps(1), 2, &records);
    let hit = Some((1, u64::from(LAST) - 1));
    assert_eq!(asked(&trace, LAST, LAST, 5), hit);
    assert_eq!(asked(&trace, 1, LAST, 5), hit);
    assert_eq!(asked(&trace, 1, LAST - 1, 5), hit);
    assert_eq!(asked(&trace, 1, LAST - 2, 5), None);
}

/// Goes from tick to tick and asks each bucket for it.
fn tick_by_tick(buckets: &[Bucket], first: u32, last: u32, bar: i32) -> Option<(u64, u64)> {
    let held = |tick: u64| {
        let holds = |bucket: &Bucket| (0..bucket.count).any(|turn| bucket.start + turn == tick);
        buckets.iter().position(holds)
    };
    let ticks = u64::from(first)..=u64::from(last);
    let over = |&index: &usize| buckets[index].largest >= i64::from(bar);
    let index = ticks.filter_map(held).find(over)?;
    Some((index as u64, buckets[index].start))
}

#[test]
fn as_a_look_at_every_tick_says() {
    let mut random = Random::new(51);
    let (mut hits, mut nones) = (0, 0);
    for _ in 0..4_000 {
        let trace = random_trace(&mut random);
        let buckets = trace.buckets();
        for _ in 0..12 {
            let [first, last] = [(); 2].map(|()| random.below(45) as u32);
            let bar = match random.below(4) {
                0 => random_value(&mut random),
                _ if buckets.is_empty() => 0,
                _ => {
                    let about = random.choice(&buckets).largest + random.between(-1, 1);
                    about.clamp(i64::from(i32::MIN), i64::from(i32::MAX)) as i32
                }
            };
            let answer = asked(&trace, first, last, bar);
            assert_eq!(answer, tick_by_tick(&buckets, first, last, bar));
            match answer {
                Some(_) => hits += 1,
                None => nones += 1,
            }
        }
    }
    assert!(hits > 10_000 && nones > 10_000, "{hits} {nones}");
}
