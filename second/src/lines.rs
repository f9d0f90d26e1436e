//! Inputs for the listing program, each made from its number: short ones of every kind of line, good and refused; traces that name no steps, in order
//! and late; B and K up to their bounds; and inputs longer than one read.

use crate::long_lines;
use crate::random::Random;
use crate::shapes::{self, Shape};
use std::fmt::Write as _;

type Make = fn(u64) -> Vec<u8>;

/// How many inputs each group has, and what makes one of them.
const GROUPS: [(u64, Make); 12] = [
    (240, short),
    (45, without_header),
    (44, in_order_of_any_steps),
    (56, thousands_in_one_read),
    (50, late_of_any_runs),
    (12, late_in_any_order),
    (15, long_lines::cut),
    (6, long_lines::by_chance),
    (8, long_lines::ending_at_a_read),
    (12, long_lines::too_long_at_a_read),
    (5, long_lines::refused_at_the_end),
    (45, late_without_steps),
];

/// 4,096 readings and twice as many, with one fewer and one more of each, and two more.
pub const THOUSANDS: [usize; 7] = [4_095, 4_096, 4_097, 8_191, 8_192, 8_193, 8_194];

/// How many inputs there are.
pub fn inputs() -> u64 {
    GROUPS.iter().map(|(count, _)| count).sum()
}

/// The input of a number below `inputs`, as bytes.
pub fn input(number: u64) -> Vec<u8> {
    let mut number_in_group = number;
    for (count, make) in GROUPS {
        if number_in_group < count {
            return make(number_in_group);
        }
        number_in_group -= count;
    }
    panic!("no input has the number {number}");
}

/// Lines that no trace can read, and lines that stand at the edge of what can be read.
const ODD: [&str; 26] = [
    "",
    " 5",
    "5 ",
    "5  6",
    "5\r",
    "+5",
    "--5",
    "-",
    "1 2 3",
    "5\t6",
    "steps",
    "steps 4",
    "steps 0",
    "steps 257",
    "steps 4294967296",
    "late",
    "late 3",
    "late 0",
    "late 300",
    "2147483648",
    "-2147483649",
    "12345678901",
    "0000000007",
    "16777216 1",
    "4294967296 1",
    "7 99999999999",
];

/// Headers that are refused, at the bounds of B and K, out of range, repeated or out of place.
const HEADERS: [&str; 10] = [
    "steps 0",
    "steps 257",
    "steps -0",
    "steps 4294967296",
    "late 0",
    "late 300",
    "steps 2\nlate 257",
    "steps 4\nsteps 4",
    "late 2\nsteps 3",
    "late 3\nlate 3",
];

/// Ticks of a late trace that are past the last, or past the field.
const TICKS: [&str; 3] = ["16777216 1", "4294967295 1", "4294967296 1"];

/// A short input; the last line lacks its line feed in every third.
fn short(number: u64) -> Vec<u8> {
    let mut random = Random::new(number * 2 + 1);
    let mut text = String::new();
    let late = number % 2 == 1;
    if number % 8 == 2 {
        let header = HEADERS[(number / 8) as usize % HEADERS.len()];
        return format!("{header}\n5\n").into_bytes();
    }
    if number % 4 < 3 {
        writeln!(text, "steps {}", 1 + random.below(12)).expect("a string takes any text");
    }
    if late {
        writeln!(text, "late {}", 1 + random.below(6)).expect("a string takes any text");
    }
    let mask = random.below(4);
    let readings = random.below(90);
    let odd = if number % 5 == 0 {
        None
    } else {
        Some(random.below(readings + 20))
    };
    for index in 0..readings {
        if odd == Some(index) {
            let line = if late && number % 3 == 0 {
                random.choice(&TICKS)
            } else {
                random.choice(&ODD)
            };
            text.push_str(line);
            text.push('\n');
        }
        let value = match number % 3 {
            0 => random.below(9) as i64 - 4,
            1 => (random.below(1 << 32) as i64) - (1 << 31),
            _ => random.below(4000) as i64 - 1000,
        };
        if late {
            let tick = if number % 7 == 0 {
                random.below(40)
            } else {
                index ^ mask
            };
            writeln!(text, "{tick} {value}").expect("a string takes any text");
        } else {
            writeln!(text, "{value}").expect("a string takes any text");
        }
    }
    if number % 11 == 0 {
        text.push_str(&"9".repeat(60 + random.below(9) as usize));
        text.push('\n');
    }
    if number % 3 == 0 && text.ends_with('\n') {
        text.pop();
    }
    text.into_bytes()
}

/// In order by default: exactly 2B readings, one more, and many more; and as many as there were when the default was half as much. The last line lacks
/// its line feed in every second.
fn without_header(number: u64) -> Vec<u8> {
    const READINGS: [usize; 9] = [64, 65, 128, 129, 151, 200, 257, 1_000, 3_000];
    const FED: [(Shape, u32); 5] = [
        (Shape::Ramp, u32::MAX - 299),
        (Shape::Square, 11),
        (Shape::Noise, 12),
        (Shape::FewLevels, 13),
        (Shape::FullSwings, 14),
    ];
    let readings = READINGS[number as usize % READINGS.len()];
    let (shape, seed) = FED[number as usize / READINGS.len()];
    let mut text = values(shape, seed, readings);
    if number % 2 == 1 {
        text.pop();
    }
    text.into_bytes()
}

/// A header of steps, and readings enough that buckets merge.
fn in_order_of_any_steps(number: u64) -> Vec<u8> {
    const STEPS: [usize; 11] = [1, 2, 3, 31, 32, 33, 64, 128, 254, 255, 256];
    const SHAPES: [Shape; 4] = [
        Shape::Square,
        Shape::Noise,
        Shape::FewLevels,
        Shape::FullSwings,
    ];
    let steps = STEPS[number as usize % STEPS.len()];
    let shape = SHAPES[number as usize / STEPS.len()];
    let readings = 2 * steps + 1 + number as usize * 7;
    let text = format!("steps {steps}\n") + &values(shape, number as u32 + 1, readings);
    text.into_bytes()
}

/// In order, 4,096 readings, twice as many, or about so many, all within a read. Then nothing, or a line that is refused and readings behind it: a line
/// that cannot be read, a header out of place, a reading of the other kind, one out of range, a line too long, an empty one.
fn thousands_in_one_read(number: u64) -> Vec<u8> {
    const STEPS: [usize; 7] = [1, 4, 15, 16, 17, 64, 256];
    const LAST: [Option<&str>; 8] = [
        None,
        Some("5x"),
        Some("steps 4"),
        Some("3 5"),
        Some("2147483648"),
        Some("11111111111111111111111111111111111111111111111111111111111111111"),
        Some(""),
        None,
    ];
    let readings = THOUSANDS[number as usize % THOUSANDS.len()];
    let turn = number as usize / THOUSANDS.len();
    let steps = STEPS[(number as usize + 2 * turn) % STEPS.len()];
    let shape = [Shape::FewLevels, Shape::Noise][turn % 2];
    let mut text = format!("steps {steps}\n") + &values(shape, number as u32 + 1, readings);
    if let Some(line) = LAST[turn] {
        text.push_str(line);
        text.push_str("\n1\n2\n");
    }
    text.into_bytes()
}

/// As many runs as K allows, each long enough that buckets merge. Then, by turns, half of the ticks missing between them arrive, or one more run
/// is begun, which is refused.
fn late_of_any_runs(number: u64) -> Vec<u8> {
    const ENDS: [u64; 5] = [1, 2, 32, 255, 256];
    let steps = ENDS[number as usize % 5];
    let gaps = ENDS[number as usize / 5 % 5];
    let length = 2 * steps / gaps + 3;
    let mut random = Random::new(number + 1_000);
    let mut text = format!("steps {steps}\nlate {gaps}\n");
    let mut arrive = |tick: u64| {
        let value = random.between(-5_000, 5_000);
        writeln!(text, "{tick} {value}").expect("a string takes any text");
    };
    for place in 0..length {
        (0..gaps).for_each(|run| arrive(run * (length + 1) + place));
    }
    if number < 25 {
        (1..gaps)
            .step_by(2)
            .for_each(|run| arrive(run * (length + 1) - 1));
    } else {
        arrive(gaps * (length + 1) + 5);
        arrive(gaps * (length + 1) - 1);
    }
    text.into_bytes()
}

/// Late by default: about as many readings as without a header and, since one run adds one to the limit, one more than 2B + 1. The
/// ticks come in order, displaced a little, every second first, from both ends, or in bursts with one tick in forty missing. The last
/// line lacks its line feed in every second.
fn late_without_steps(number: u64) -> Vec<u8> {
    const READINGS: [usize; 9] = [65, 128, 129, 130, 151, 200, 257, 1_000, 3_000];
    const FED: [(Shape, u32, u8, u64); 5] = [
        (Shape::Square, 21, 0, 1),
        (Shape::Noise, 22, 2, 5),
        (Shape::FewLevels, 23, 3, 9),
        (Shape::FullSwings, 24, 4, 3),
        (Shape::Noise, 25, 5, 80),
    ];
    let readings = READINGS[number as usize % READINGS.len()];
    let (shape, seed, order, gaps) = FED[number as usize / READINGS.len()];
    let mut text = format!("late {gaps}\n");
    for reading in shapes::readings(shape, seed).take(readings) {
        let tick = reading.tick(order);
        let missing = if gaps == 80 { tick / 39 } else { 0 };
        writeln!(text, "{} {}", tick + missing, reading.value).expect("a string takes any text");
    }
    if number % 2 == 1 {
        text.pop();
    }
    text.into_bytes()
}

fn late_in_any_order(number: u64) -> Vec<u8> {
    let steps = [32, 256][number as usize % 2];
    let order = number as u8 / 2;
    let mut text = format!("steps {steps}\nlate 256\n");
    for reading in shapes::readings(Shape::Noise, number as u32 + 1).take(1_500) {
        writeln!(text, "{} {}", reading.tick(order), reading.value)
            .expect("a string takes any text");
    }
    text.into_bytes()
}

fn values(shape: Shape, seed: u32, readings: usize) -> String {
    let mut text = String::new();
    for reading in shapes::readings(shape, seed).take(readings) {
        writeln!(text, "{}", reading.value).expect("a string takes any text");
    }
    text
}
