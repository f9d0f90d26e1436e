//! The language of scripts is read and written as described, and so are the lines that calls write and the shapes of readings.

use second::command::{Command, Name, Word};
use second::picture;
use second::rule::Bucket;
use second::shapes::{self, Shape};
use second::told;

#[test]
fn a_line_is_a_word_and_numbers_by_name() {
    let line = "late tick=4294967295 value=-2147483648\n";
    let named = [
        (Name::Tick, u64::from(u32::MAX)),
        (Name::Value, i32::MIN as i64 as u64),
    ];
    let command = Command::new(Word::Late, &named);
    let mut text = String::new();
    command.write_line(&mut text);
    assert_eq!(text, line);
    assert_eq!(Command::of_line(line.trim()), Ok(Some(command)));
    assert_eq!(Command::of_line("# late"), Ok(None));
    for wrong in [
        "",
        "later",
        "late tick",
        "late tick=",
        "late tock=1",
        "late tick=x",
        "late  tick=1",
    ] {
        assert!(Command::of_line(wrong).is_err(), "{wrong}");
    }
}

#[test]
fn words_and_names_have_at_most_eight_letters() {
    let words = Word::ALL.iter().map(|word| word.text());
    let names = Name::ALL.iter().map(|name| name.text());
    assert!(words.chain(names).all(|text| (1..=8).contains(&text.len())));
    for &word in Word::ALL {
        assert_eq!(Word::of_text(word.text()), Some(word));
    }
}

/// H2's trace, as the commands before what a test tries.
const H2: &str = "room numbers=12\nopen kind=0 size=1 gaps=0 edition=1\nnext value=1\nnext value=4\nnext value=2\nnext value=9\n";
const H2_ROOM: [i64; 12] = [0, 3, 1, 4, 3, 1, 9, 9, 0, 0, 0, 0];

/// The lines that these commands write after H2's.
fn told_after_h2(commands: &[&str]) -> Vec<String> {
    let script = format!("{H2}{}\n", commands.join("\n"));
    let lines = told::lines(&script);
    lines.lines().skip(5).map(String::from).collect()
}

/// As the language describes it, in numbers so wide that none is lost.
fn checksum(numbers: &[i64]) -> String {
    let word = 1_u128 << 64;
    let sum = numbers.iter().fold(numbers.len() as u128, |sum, &number| {
        let mut mixed = sum ^ u128::from(number as u64);
        mixed ^= (mixed << 13) % word;
        mixed ^= mixed >> 7;
        mixed ^= (mixed << 17) % word;
        (mixed + 11_400_714_819_323_198_485) % word
    });
    format!("{sum:016x}")
}

#[test]
fn readings_and_lookups_are_told_whole() {
    let room = checksum(&H2_ROOM);
    assert_eq!(
        told_after_h2(&[
            "show",
            "lookup tick=1",
            "lookup tick=4",
            "late tick=4 value=1",
            "worst"
        ]),
        [
            "show 0 2 0 2 1 4 1 0 3 1 4 3 1 9 9 0 0 0 0".to_string(),
            format!("lookup 0 0 2 2 1 4 room {room}"),
            format!("lookup 12 0 0 0 0 0 room {room}"),
            format!("late 5 0 0 2 0 2 1 4 1 room {room}"),
            format!("worst 0 0 2 room {room}"),
        ]
    );
}

#[test]
fn searches_are_told_whole() {
    let room = checksum(&H2_ROOM);
    let told = told_after_h2(&[
        "over first=1 last=3 bar=5",
        "over last=2 bar=5",
        "over last=3 bar=-1",
        "over first=3 last=2",
        "over first=16777216 last=3",
        // Of each number the lowest 32 bits.
        "over first=4294967299 last=-4294967293 bar=4294967305",
        "over last=3 bar=2147483648",
        "state readings=5",
        "over last=16777216 bar=5",
    ]);
    let answers = [
        "0 0 1 1 3",
        "0 0 0 0 0",
        "0 0 1 0 0",
        "0 0 0 0 0",
        "6 0 0 0 0",
        "0 0 1 1 3",
        "0 0 1 0 0",
        "4 0 0 0 0",
    ];
    assert_eq!(
        told,
        answers.map(|answer| format!("over {answer} room {room}"))
    );
}

#[test]
fn a_bar_is_written_with_its_sign() {
    let named = [
        (Name::Bar, i32::MIN as i64 as u64),
        (Name::Last, 9),
        (Name::First, 3),
    ];
    let mut text = String::new();
    Command::new(Word::Over, &named).write_line(&mut text);
    assert_eq!(text, "over first=3 last=9 bar=-2147483648\n");
}

#[test]
fn rows_and_saves_are_told_with_what_they_are_lent() {
    let room = checksum(&H2_ROOM);
    let row = [0, 3, 1, 4, 3, 1, 9, 9];
    let mut bytes = Vec::new();
    for number in row {
        bytes.extend([number, 0, 0, 0]);
    }
    let blank = 165 - 256;
    let blank = i64::from(i32::from_le_bytes([blank as u8; 4]));
    let unsigned = i64::from(blank as u32);
    let third = [unsigned, unsigned, blank, blank];
    assert_eq!(
        told_after_h2(&[
            "row places=1",
            "row places=2",
            "blank bytes=48 value=165",
            "row places=3",
            "save bytes=31",
            "save bytes=33",
        ]),
        [
            format!("row 13 0 0 room {room} row {}", checksum(&[0; 4])),
            format!("row 0 0 2 room {room} row {}", checksum(&row)),
            format!(
                "row 0 0 2 room {room} row {}",
                checksum(&[&row[..], &third].concat())
            ),
            format!("save 13 0 0 room {room} output {}", checksum(&[165; 31])),
            format!(
                "save 0 0 2 room {room} output {}",
                checksum(&[&bytes[..], &[165]].concat())
            ),
        ]
    );
}

#[test]
fn pictures_are_told_whole_and_printed() {
    let room = checksum(&H2_ROOM);
    let bucket = |slot: &[i64]| Bucket {
        start: slot[0] as u64,
        count: slot[1] as u64,
        least: slot[2],
        largest: slot[3],
    };
    let table: Vec<Bucket> = H2_ROOM[..8].chunks(4).map(bucket).collect();
    let text = picture::text(&table, b"<&");
    let bytes = text.len();
    let told = told_after_h2(&[
        "picture bytes=9",
        "print",
        "byte at=3 value=60",
        "byte at=4 value=38",
        &format!("blank bytes={} value=165", bytes + 2),
        &format!("picture from=3 letters=2 bytes={}", bytes + 1),
        "print",
        "print",
        // The whole file, and what is left of it from an index on.
        "picture letters=18446744073709551615 bytes=18446744073709551615",
        "print",
        "picture from=655360 letters=7",
        "picture from=655361 letters=7",
        "state readings=9",
        "picture from=655359 letters=7",
    ]);
    let of_bytes = |bytes: &[u8]| {
        let numbers: Vec<i64> = bytes.iter().copied().map(i64::from).collect();
        checksum(&numbers)
    };
    let line = |answer: &str, caption: &[u8], output: &[u8]| {
        let [caption, output] = [caption, output].map(of_bytes);
        format!("picture {answer} room {room} caption {caption} output {output}")
    };
    let mut file = vec![0; 655_360];
    file[3..5].copy_from_slice(b"<&");
    let mut output = vec![0; 65_536];
    output[..bytes].copy_from_slice(&text);
    output[bytes..bytes + 2].fill(165);
    let printed = std::str::from_utf8(&text).unwrap().lines();
    let mut expected = vec![line("13 0 0", b"", &[0; 9])];
    expected.push(line(&format!("0 0 {bytes}"), b"<&", &output[..bytes + 1]));
    expected.extend(printed.clone().chain(printed).map(String::from));
    expected.push(line("15 0 0", &file, &output));
    expected.extend([line("13 0 0", b"", b""), line("13 0 0", b"", b"")]);
    expected.push(line("4 0 0", &[0], b""));
    assert_eq!(told, expected);
}

#[test]
fn files_are_loaded_and_changed() {
    let told = told_after_h2(&[
        "save bytes=32",
        "take bytes=32",
        "load size=2",
        "load",
        "load edition=4294967297",
        "file bytes=31",
        "load size=1",
        "file bytes=32",
        "load size=2 by=9",
        // The second record's count.
        "byte at=20 value=0",
        "load size=1",
        // The first record twice, so the second does not start at the end of the first.
        "copy from=0 to=1 count=1",
        "load size=1",
        // Past the end nothing is copied and nothing put.
        "copy from=0 to=40959 count=2",
        "byte at=655360 value=1",
        "record at=40960 start=1",
        "record at=1 start=3 count=1 least=9 largest=9",
        "load size=1 edition=2",
        "load size=1",
    ]);
    let starts: Vec<&str> = told
        .iter()
        .map(|line| line.split(" room").next().unwrap())
        .collect();
    assert_eq!(
        starts,
        [
            "save 0 0 2",
            "load 3 0 0 0 0 0 0 0 0",
            "load 1 0 0 0 0 0 0 0 0",
            "load 16 0 0 0 0 0 0 0 0",
            "load 7 0 0 0 0 0 0 0 0",
            "load 0 0 0 2 0 2 1 4 1",
            "load 8 1 0 0 0 0 0 0 0",
            "load 8 1 0 0 0 0 0 0 0",
            "load 0 0 0 2 0 2 1 4 2",
            "load 0 0 0 2 0 2 1 4 2",
        ]
    );
    let bytes: Vec<i64> = [0, 3, 1, 4, 3, 1, 9, 9]
        .iter()
        .flat_map(|&number| [number, 0, 0, 0])
        .collect();
    assert!(told[8].ends_with(&format!(" file {}", checksum(&bytes))));
}

#[test]
fn recordings_are_replayed_and_told_whole() {
    let told = told::lines(
        "room numbers=20
file bytes=12
frame counter=65535 value=-2
frame at=1 counter=196608 value=4294967299
replay size=2 gaps=2 by=7 edition=2
show
file bytes=11
replay size=2 by=1
frame at=0 counter=65535 value=-2147483648
file bytes=12
replay size=2 by=1
replay size=2
replay gaps=257
replay gaps=257 size=1
replay gaps=257 size=1 edition=0
show
",
    );
    let lines: Vec<&str> = told.lines().collect();
    let numbers = |least| {
        let mut numbers = [0; 20];
        numbers[..8].copy_from_slice(&[32_768, 1, least, least, 32_769, 1, 3, 3]);
        numbers
    };
    let [before, after] = [-2, -2_147_483_648].map(numbers);
    let rooms = [before, after].map(|numbers| checksum(&numbers));
    let bytes = [255, 255, 254, 255, 255, 255, 0, 0, 3, 0, 0, 0];
    let changed = [255, 255, 0, 0, 0, 128, 0, 0, 3, 0, 0, 0];
    let refused = |number, room: &str, bytes: &[i64]| {
        let file = checksum(bytes);
        format!("replay {number} 0 0 0 0 0 0 0 0 0 0 room {room} file {file}")
    };
    let accepted = |room: &str, bytes: &[i64]| {
        let file = checksum(bytes);
        format!("replay 0 0 1 2 2 2 1 2 2 2 0 room {room} file {file}")
    };
    let shown = |numbers: [i64; 20]| {
        let numbers = numbers.map(|number| number.to_string());
        format!("show 1 2 2 2 1 2 2 {}", numbers.join(" "))
    };
    assert_eq!(
        lines,
        [
            accepted(&rooms[0], &bytes),
            shown(before),
            refused(7, &rooms[0], &bytes[..11]),
            accepted(&rooms[1], &changed),
            refused(3, &rooms[1], &changed),
            refused(1, &rooms[1], &changed),
            refused(2, &rooms[1], &changed),
            refused(16, &rooms[1], &changed),
            shown(after),
        ]
    );
}

#[test]
fn many_readings_are_told_whole() {
    let told = told::lines(
        "room numbers=12
open size=1 edition=1
reading value=1
reading at=1 tick=1 value=4
reading at=2 tick=4294967297 value=2
reading at=3 tick=9 value=4294967305
reading at=4096 tick=7 value=7
reading at=18446744073709551615 tick=7 value=7
nextmany
nextmany values=4
latemany ticks=1 values=1
state readings=9
nextmany from=3
nextmany from=3 values=1
room numbers=20
open kind=7 size=1 gaps=2 edition=2
state kind=7
latemany ticks=4
latemany values=4
nextmany values=4
latemany ticks=3 values=9
latemany from=4095 ticks=9 values=9
latemany from=4096 ticks=9 values=9
latemany from=3 ticks=18446744073709551615 values=1
",
    );
    let zeros = |count| checksum(&vec![0; count]);
    let h2 = checksum(&H2_ROOM);
    // What H2 has left in the room is cleared by the open.
    let late = |used: usize| {
        let mut numbers = [0; 20];
        let slots = [[0, 1, 1, 1], [1, 1, 4, 4], [9, 1, 9, 9]];
        numbers[..4 * used].copy_from_slice(slots[..used].as_flattened());
        checksum(&numbers)
    };
    let lines: Vec<&str> = told.lines().filter(|line| line.contains("many")).collect();
    assert_eq!(
        lines,
        [
            format!("nextmany 0 0 0 2 0 0 0 0 1 0 room {}", zeros(12)),
            format!("nextmany 0 0 0 2 0 2 1 4 1 4 room {h2}"),
            format!("latemany 5 0 0 2 0 2 1 4 1 0 room {h2}"),
            format!("nextmany 0 0 0 2 0 2 1 9 1 0 room {h2}"),
            format!("nextmany 4 0 0 2 0 2 1 9 1 0 room {h2}"),
            format!("latemany 0 0 7 2 2 0 0 0 2 0 room {}", zeros(20)),
            format!("latemany 0 0 7 2 2 0 0 0 2 0 room {}", zeros(20)),
            format!("nextmany 5 0 7 2 2 0 0 0 2 0 room {}", zeros(20)),
            format!("latemany 11 0 1 2 2 2 1 2 2 2 room {}", late(2)),
            format!("latemany 11 0 1 2 2 2 1 2 2 0 room {}", late(2)),
            format!("latemany 0 0 1 2 2 2 1 2 2 0 room {}", late(2)),
            format!("latemany 0 0 1 2 2 3 2 3 2 1 room {}", late(3)),
        ]
    );
}

#[test]
fn a_logger_s_record_past_the_end_is_not_written() {
    // Four bytes are left behind the last place.
    let told = told::lines(
        "file bytes=655360
replay size=1 gaps=1
frame at=109226 counter=65535 value=-1
frame at=18446744073709551615 counter=65535 value=-1
replay size=1 gaps=1
frame at=109225 counter=513 value=1027
replay size=1 gaps=1
file bytes=655361
replay size=1 gaps=1
",
    );
    let mut bytes = vec![0; 655_360];
    let zeros = checksum(&bytes);
    bytes[655_350..655_356].copy_from_slice(&[1, 2, 3, 4, 0, 0]);
    let files: Vec<&str> = told
        .lines()
        .map(|line| line.rsplit(' ').next().unwrap())
        .collect();
    let changed = checksum(&bytes);
    assert_eq!(files, [&zeros, &zeros, &changed, &changed]);
}

#[test]
fn what_is_not_given_is_as_it_is_at_hand() {
    let zeros = checksum(&[0; 16]);
    let script = "room numbers=16\nopen kind=9 size=1 gaps=1\nopen kind=9 size=1 gaps=1 edition=2\nstate kind=7\nnext value=5\nstate used=3\nshow\nstate used=0\nlate value=5\nopen size=1\nstate edition=18446744073709551615\nworst\nopen size=1\n";
    let lines = told::lines(script);
    let lines: Vec<&str> = lines.lines().collect();
    let mut numbers = [0; 16];
    numbers[..4].copy_from_slice(&[0, 1, 5, 5]);
    assert_eq!(
        lines,
        [
            format!("open 16 0 0 0 0 0 0 0 0 room {zeros}"),
            format!("open 0 0 1 2 1 0 0 0 2 room {zeros}"),
            format!("next 5 0 7 2 1 0 0 0 2 room {zeros}"),
            format!("show 7 2 1 3 0 0 2{}", " 0".repeat(16)),
            format!("late 0 0 1 2 1 1 1 1 2 room {}", checksum(&numbers)),
            format!("open 0 0 1 2 1 0 0 0 2 room {zeros}"),
            format!("worst 4 0 0 room {zeros}"),
            format!("open 16 0 0 0 0 0 0 0 0 room {zeros}"),
        ]
    );
}

#[test]
fn size_is_b_where_by_is_0_and_else_c() {
    let script = "room numbers=16\nstate edition=1\nopen size=1\nopen size=1 by=1\nopen size=3 by=18446744073709551615\nopen by=1\nopen\nopen size=9223372036854775809\nopen size=513 by=1\nopen size=3 by=2\nstate base=9\nshow\n";
    let lines = told::lines(script);
    let answers: Vec<&str> = lines
        .lines()
        .map(|line| line.split(" room").next().unwrap())
        .collect();
    let refused = "open 1 0 0 0 0 0 0 0 0";
    let shown = format!("show 0 9 0 0 0 0 1{}", " 0".repeat(16));
    let expected = [
        "open 0 0 0 2 0 0 0 0 1",
        "open 0 0 0 1 0 0 0 0 1",
        "open 0 0 0 3 0 0 0 0 1",
        refused,
        refused,
        refused,
        refused,
        "open 0 0 0 3 0 0 0 0 1",
        &shown,
    ];
    assert_eq!(answers, expected);
}

#[test]
fn told_readings_show_the_tally() {
    let script = "room numbers=12\nopen size=1 edition=1\ntally accepted=4294967294 refused=7\nnexttold value=3\nnexttold value=3\nlatetold tick=9\n";
    let lines = told::lines(script);
    let tallies: Vec<&str> = lines
        .lines()
        .filter_map(|line| line.split_once(" tally "))
        .map(|(_, tally)| tally)
        .collect();
    assert_eq!(
        tallies,
        ["4294967295 7 0", "4294967295 7 0", "4294967295 8 0"]
    );
}

#[test]
fn level_and_error_are_told_alone() {
    let script = "level least=-3 largest=0\nerror least=-3 largest=0\nlevel least=-2147483648 largest=2147483647\nerror least=-2147483648 largest=2147483647\n";
    assert_eq!(
        told::lines(script),
        "level -2\nerror 2\nlevel -1\nerror 2147483648\n"
    );
}

#[test]
fn the_shapes_are_as_described() {
    let first = |shape, seed| -> Vec<i32> {
        let readings = shapes::readings(shape, seed).take(3);
        readings.map(|reading| reading.value).collect()
    };
    assert_eq!(first(Shape::Constant, u32::MAX), [-1, -1, -1]);
    assert_eq!(first(Shape::Ramp, u32::MAX - 3), [-4, -1, 2]);
    assert_eq!(first(Shape::Square, 35), [60, 7_400, 60]);
    assert_eq!(first(Shape::Square, 98), [12_050, 12_050, 60]);
    assert_eq!(first(Shape::FullSwings, 1)[0], 270_369);
    assert_eq!(first(Shape::FewLevels, 1)[0], 1);
    assert_eq!(first(Shape::Noise, 1)[0], -766);
    let ticks = |order| -> Vec<u32> {
        let readings = shapes::readings(Shape::Constant, 1).take(10);
        readings.map(|reading| reading.tick(order)).collect()
    };
    assert_eq!(ticks(0), [0, 1, 2, 3, 4, 5, 6, 7, 8, 9]);
    assert_eq!(ticks(1)[..3], [16_777_215, 16_777_214, 16_777_213]);
    assert_eq!(ticks(2), [0, 5, 2, 7, 4, 1, 6, 3, 8, 13]);
    assert_eq!(ticks(3), [0, 2, 4, 6, 8, 10, 12, 14, 1, 3]);
    assert_eq!(ticks(4), [0, 63, 1, 62, 2, 61, 3, 60, 4, 59]);
    assert_eq!(ticks(5), [8, 9, 10, 11, 12, 13, 14, 15, 16, 17]);
    assert_eq!(ticks(6)[0], 4);
}
