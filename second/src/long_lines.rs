//! Inputs for the listing program that are longer than one of its reads. Where a read ends and the next begins, lines are cut: what is lost or
//! doubled there must show. So the readings that a cut touches stand out from all others, and each is a bucket of its own.

use crate::shapes::{self, Shape};
use std::fmt::Write as _;

/// The most bytes that the program asks for at once.
pub const READ: usize = 65_536;
/// Every input that is to be cut three times has more bytes than this.
pub const LONG: usize = 200_000;
/// Bytes of the longest reading without zeros before its digits, in order and late, without the line feed. A zero before them could be lost unseen.
pub const VALUE_BYTES: usize = 11;
pub const PAIR_BYTES: usize = 20;

/// What all readings are but the cut ones, and what those are; each has eleven bytes. A late trace begins at a tick of eight digits.
const QUIET: i64 = -1_000_000_000;
const CUT: [i64; 5] = [
    -2_147_483_648,
    -1_987_654_321,
    -2_045_678_913,
    -1_234_567_890,
    -1_870_965_432,
];
const FIRST_TICK: u32 = 16_000_000;

/// All lines but the first have one length. Four inputs in order and eleven late ones have between them a cut at every place of such a line.
pub fn cut(number: u64) -> Vec<u8> {
    let place = number as usize;
    let text = if place < 4 {
        in_order(place, LONG + 5_000)
    } else {
        late(place - 4, LONG + 5_000)
    };
    text.into_bytes()
}

/// A number in exactly so many bytes, zeros before its digits.
fn padded(number: i64, bytes: usize) -> String {
    format!("{number:0bytes$}")
}

/// Readings up to exactly so many bytes, of which at least three must be left.
fn fill(text: &mut String, bytes: usize) {
    while text.len() < bytes {
        let line = match bytes - text.len() {
            left @ ..=12 => left,
            left @ ..=24 => left / 2,
            _ => VALUE_BYTES + 1,
        };
        writeln!(text, "{}", padded(-5, line - 1)).expect("a string takes any text");
    }
}

/// Whether a cut stands before, in or after the line that begins here, its line feed among its bytes.
fn is_cut(begin: usize, bytes: usize) -> bool {
    let end = begin + bytes;
    (1..=end / READ).any(|read| begin <= read * READ)
}

fn value(text: &str, bytes: usize, cuts: &mut usize) -> i64 {
    if !is_cut(text.len(), bytes) {
        return QUIET;
    }
    *cuts += 1;
    CUT[*cuts % CUT.len()]
}

/// No header; short readings first, that move the lines behind them.
fn in_order(place: usize, least_bytes: usize) -> String {
    let mut text = String::new();
    fill(&mut text, VALUE_BYTES + 1 + place);
    let mut cuts = 0;
    while text.len() < least_bytes {
        let value = value(&text, VALUE_BYTES + 1, &mut cuts);
        writeln!(text, "{value}").expect("a string takes any text");
    }
    text
}

/// The headers' numbers have as many zeros as move the lines behind them. Each two ticks arrive in the other order, so at the end there is one run.
fn late(place: usize, least_bytes: usize) -> String {
    let digits = PAIR_BYTES + 1 + place - "steps \nlate \n".len();
    let steps = padded(16, digits / 2);
    let gaps = padded(2, digits - digits / 2);
    let mut text = format!("steps {steps}\nlate {gaps}\n");
    let mut cuts = 0;
    let mut turn = 0;
    while text.len() < least_bytes || turn % 2 == 1 {
        let value = value(&text, PAIR_BYTES + 1, &mut cuts);
        let tick = FIRST_TICK + (turn ^ 1);
        writeln!(text, "{tick} {value}").expect("a string takes any text");
        turn += 1;
    }
    text
}

/// Readings of any length, of both kinds by turns.
pub fn by_chance(number: u64) -> Vec<u8> {
    let mut text = String::new();
    let late = number % 2 == 1;
    if late {
        text.push_str("late 9\n");
    }
    for reading in shapes::readings(Shape::FullSwings, number as u32 + 1) {
        // A remainder by a power of ten: as many digits as the turn has it.
        let value = reading.value % 10_i32.pow(reading.tick(0) % 10);
        if late {
            write!(text, "{} ", reading.tick(2)).expect("a string takes any text");
        }
        writeln!(text, "{value}").expect("a string takes any text");
        if text.len() > LONG {
            break;
        }
    }
    text.into_bytes()
}

/// The last byte, a line feed or a digit, is the last of a read, or next to it.
pub fn ending_at_a_read(number: u64) -> Vec<u8> {
    let bytes = [READ - 1, READ, READ + 1, 2 * READ][number as usize / 2];
    let feed = if number % 2 == 0 { "\n" } else { "" };
    let last = format!("{}{feed}", CUT[1]);
    let mut text = in_order(0, bytes - 40);
    fill(&mut text, bytes - last.len());
    text.push_str(&last);
    text.into_bytes()
}

/// A line of 64 or 65 digits that begins so many bytes before the end of a read; what the next read has of it could be read by itself.
pub fn too_long_at_a_read(number: u64) -> Vec<u8> {
    const BEFORE: [usize; 6] = [0, 1, 55, 63, 64, 65];
    let begin = READ * (1 + number as usize % 3) - BEFORE[number as usize / 2];
    let mut text = in_order(0, begin - 40);
    fill(&mut text, begin);
    text.push_str(&"1".repeat(64 + number as usize % 2));
    text.push_str("\n5\n6\n");
    text.into_bytes()
}

/// A late trace of more than three reads, then a line that is refused, by each of the numbers that one can be refused by there, then more lines.
pub fn refused_at_the_end(number: u64) -> Vec<u8> {
    const LAST: [&str; 5] = ["16777216 1", "16000000 1", "9 1", "7", "steps 4"];
    let mut text = late(number as usize, LONG + 1_000 * number as usize);
    // A run apart, so that there are as many as K allows.
    text.push_str("5 5\n");
    text.push_str(LAST[number as usize]);
    text.push('\n');
    text.push_str(&"8 8\n".repeat(10_000 * number as usize));
    text.into_bytes()
}
