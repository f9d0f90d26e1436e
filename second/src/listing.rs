//! The listing program: lines of readings in, one line a bucket and the total out. And the picture program: a caption before the lines, a picture out.
//! And what is saved of such lines.

use crate::calls::{self, Refusal, Size, Trace, CAPTION, LINE};
use crate::picture;
use crate::rule::{self, Bucket, Edition, Kind};
use std::io::{self, BufRead, Read, Write};

/// B where no line names it.
pub const DEFAULT_STEPS: u64 = 64;
/// No line names the edition: pages are listed, drawn and saved by the first.
const PUBLISHED: Edition = Edition::First;
const LINE_BYTES: usize = 64;

/// Reads all of the input, or up to its first refused line, and answers the whole output.
pub fn list(input: impl BufRead) -> io::Result<Vec<u8>> {
    shown(PUBLISHED, input, listed)
}

/// The saved form of the buckets that the lines leave, or the first refused line.
pub fn save(input: impl BufRead) -> io::Result<Vec<u8>> {
    save_in(PUBLISHED, input)
}

/// What would be saved if pages were of this edition.
pub fn save_in(edition: Edition, input: impl BufRead) -> io::Result<Vec<u8>> {
    shown(edition, input, |table| Ok(calls::file_of(table)))
}

/// The listing with a caption as the first line, which is not counted.
pub fn draw(mut input: impl BufRead) -> io::Result<Vec<u8>> {
    let mut caption = Vec::new();
    // One byte more than a caption may have, and its line feed.
    let mut first_line = input.by_ref().take(picture::MOST_CAPTION as u64 + 2);
    first_line.read_until(b'\n', &mut caption)?;
    if caption.last() == Some(&b'\n') {
        caption.pop();
    }
    if !picture::is_caption(&caption) {
        return Ok(refused(0, CAPTION));
    }
    let drawn = |table: &[Bucket]| Ok(picture::text(table, &caption));
    shown(PUBLISHED, input, drawn)
}

/// What is written of the buckets that the lines leave, or the first refused line.
fn shown(
    edition: Edition,
    mut input: impl BufRead,
    written: impl Fn(&[Bucket]) -> io::Result<Vec<u8>>,
) -> io::Result<Vec<u8>> {
    let mut listing = Listing::new(edition);
    let mut line = Vec::new();
    let mut line_number: u64 = 0;
    loop {
        line.clear();
        // One byte more than a line may have: either its line feed, or proof that it is too long.
        let mut one_line = input.by_ref().take(LINE_BYTES as u64 + 1);
        if one_line.read_until(b'\n', &mut line)? == 0 {
            return written(listing.trace.table());
        }
        line_number += 1;
        if line.last() == Some(&b'\n') {
            line.pop();
        }
        if let Err(refusal) = listing.take(&line) {
            return Ok(refused(line_number, refusal.number));
        }
    }
}

fn refused(line_number: u64, number: u32) -> Vec<u8> {
    format!("refused {line_number} {number}\n").into_bytes()
}

fn listed(table: &[Bucket]) -> io::Result<Vec<u8>> {
    let mut output = Vec::new();
    for bucket in table {
        writeln!(
            output,
            "{} {} {} {} {}",
            bucket.start,
            bucket.count,
            bucket.least,
            bucket.largest,
            bucket.level()
        )?;
    }
    writeln!(
        output,
        "total {} {} {}",
        rule::readings(table),
        table.len(),
        rule::worst_error(table)
    )?;
    Ok(output)
}

enum Line {
    Steps(u64),
    Late(u64),
    Value(i32),
    TickValue(u32, i32),
}

/// How far the input has come; each header line may stand only before a later one.
#[derive(PartialEq, PartialOrd)]
enum Stage {
    Beginning,
    AfterSteps,
    AfterLate,
    Readings,
}

struct Listing {
    edition: u64,
    stage: Stage,
    trace: Trace,
}

impl Listing {
    fn new(edition: Edition) -> Listing {
        let edition = edition.number();
        let trace = Trace::open(edition, Kind::InOrder, Size::Steps(DEFAULT_STEPS), 0);
        Listing {
            edition,
            stage: Stage::Beginning,
            trace: trace.expect("the default is in bounds"),
        }
    }

    fn take(&mut self, line: &[u8]) -> Result<(), Refusal> {
        let late = self.trace.kind() == Kind::Late;
        let edition = self.edition;
        // Each header opens anew at once, so that a bad setting is refused at its own line.
        self.stage = match line_of(line) {
            Some(Line::Steps(steps)) if self.stage == Stage::Beginning => {
                self.trace = Trace::open(edition, Kind::InOrder, Size::Steps(steps), 0)?;
                Stage::AfterSteps
            }
            Some(Line::Late(gaps)) if self.stage <= Stage::AfterSteps => {
                let size = Size::Base(self.trace.base());
                self.trace = Trace::open(edition, Kind::Late, size, gaps)?;
                Stage::AfterLate
            }
            Some(Line::Value(value)) if !late => {
                self.trace.next(value)?;
                Stage::Readings
            }
            Some(Line::TickValue(tick, value)) if late => {
                self.trace.late(tick, value)?;
                Stage::Readings
            }
            _ => return Err(Refusal::of(LINE)),
        };
        Ok(())
    }
}

fn line_of(line: &[u8]) -> Option<Line> {
    if line.len() > LINE_BYTES {
        return None;
    }
    // A space too many leaves an empty field, which is no number.
    let mut fields = line.split(|&byte| byte == b' ');
    match (fields.next()?, fields.next(), fields.next()) {
        (b"steps", Some(steps), None) => Some(Line::Steps(u64::from(unsigned(steps)?))),
        (b"late", Some(gaps), None) => Some(Line::Late(u64::from(unsigned(gaps)?))),
        (value, None, None) => Some(Line::Value(signed(value)?)),
        (tick, Some(value), None) => Some(Line::TickValue(unsigned(tick)?, signed(value)?)),
        _ => None,
    }
}

fn unsigned(field: &[u8]) -> Option<u32> {
    u32::try_from(number(field)?).ok()
}

fn signed(field: &[u8]) -> Option<i32> {
    i32::try_from(number(field)?).ok()
}

/// Minus zero is the number 0, in an unsigned field too.
fn number(field: &[u8]) -> Option<i64> {
    let (sign, digits) = match field.strip_prefix(b"-") {
        Some(digits) => (-1, digits),
        None => (1, field),
    };
    if !(1..=10).contains(&digits.len()) || !digits.iter().all(u8::is_ascii_digit) {
        return None;
    }
    let size = digits
        .iter()
        .fold(0, |size: i64, digit| size * 10 + i64::from(digit - b'0'));
    Some(sign * size)
}
