//! What an input of the listing program tries, read off the input itself and its listing: one line a class, to be counted over all inputs.

use crate::lines::THOUSANDS;
use crate::listing;
use crate::long_lines::{LONG, PAIR_BYTES, READ, VALUE_BYTES};
use std::io;

/// B and K at their bounds, and next to the upper one.
const BOUNDS: [u64; 3] = [1, 255, 256];

/// The classes of an input.
pub fn classes(input: &[u8]) -> io::Result<Vec<String>> {
    let output = listing::list(input)?;
    let output = String::from_utf8(output).map_err(io::Error::other)?;
    let last: Vec<&str> = output.lines().last().unwrap_or("").split(' ').collect();
    let mut found = of_bytes(input);
    match last[..] {
        ["refused", line, refusal] => {
            found.push(format!("refused {refusal}"));
            found.extend(of_refused_line(input, number(line)?));
            found.extend(of_thousands(
                input,
                number(line)?.saturating_sub(2),
                "and one refused",
            ));
        }
        ["total", readings, buckets, _] => {
            found.push("whole".to_string());
            found.extend(of_headers(
                input,
                &output,
                number(readings)?,
                number(buckets)?,
            )?);
            found.extend(of_thousands(input, number(readings)?, "and no more"));
            found.extend(of_cuts(input));
            found.extend(of_sums(&output)?);
        }
        _ => return Err(io::Error::other("neither a listing nor a refusal")),
    }
    Ok(found)
}

fn number(word: &str) -> io::Result<u64> {
    word.parse().map_err(io::Error::other)
}

fn signed(word: &str) -> io::Result<i64> {
    word.parse().map_err(io::Error::other)
}

fn of_bytes(input: &[u8]) -> Vec<String> {
    let mut found = Vec::new();
    if input.last().is_some_and(|&byte| byte != b'\n') {
        found.push("last line without a line feed".to_string());
    }
    if input.len() > LONG {
        found.push(format!("more than {LONG} bytes"));
    }
    if input.len() == READ {
        found.push(format!("{READ} bytes"));
    }
    found
}

fn of_refused_line(input: &[u8], line: u64) -> Vec<String> {
    let mut found = Vec::new();
    let begin = (1..line).fold(0, |begin, _| begin + line_bytes(&input[begin..]) + 1);
    let bytes = line_bytes(&input[begin..]);
    if bytes == 64 || bytes == 65 {
        found.push(format!("refused line of {bytes} bytes"));
        // A read ends before its first byte, inside it, or before or after its line feed.
        if (begin + bytes + 1) / READ > begin.saturating_sub(1) / READ {
            found.push(format!("refused line of {bytes} bytes where a read ends"));
        }
    }
    if begin > READ {
        found.push(format!("refused after {READ} bytes"));
    }
    found
}

/// The bytes before the first line feed.
fn line_bytes(bytes: &[u8]) -> usize {
    let feed = bytes.iter().position(|&byte| byte == b'\n');
    feed.unwrap_or(bytes.len())
}

fn of_headers(input: &[u8], output: &str, readings: u64, buckets: u64) -> io::Result<Vec<String>> {
    let merged = readings > buckets;
    let text = String::from_utf8_lossy(input);
    let mut lines = text.lines().peekable();
    let mut header = |name: &str| {
        let line = lines.next_if(|line| line.starts_with(name))?;
        line[name.len()..].parse().ok()
    };
    let headers = (header("steps "), header("late "));
    if let (None, late) = headers {
        let kind = if late.is_some() { "late" } else { "in order" };
        return of_no_steps(input, output, kind, readings);
    }
    Ok(match headers {
        (Some(steps), None) if merged && BOUNDS.contains(&steps) => {
            vec![format!("merged: steps {steps}")]
        }
        (Some(steps), Some(gaps))
            if merged && BOUNDS.contains(&steps) && BOUNDS.contains(&gaps) =>
        {
            vec![format!("merged: steps {steps}, late {gaps}")]
        }
        _ => Vec::new(),
    })
}

/// So many readings in order behind a header of steps, within a read.
fn of_thousands(input: &[u8], readings: u64, then: &str) -> Vec<String> {
    let header = input.starts_with(b"steps ") && !input[line_bytes(input)..].starts_with(b"\nlate");
    let mut found = Vec::new();
    if header && input.len() < READ && THOUSANDS.contains(&(readings as usize)) {
        found.push(format!("{readings} readings in one read {then}"));
    }
    found
}

/// What shows the default: about as many readings as it keeps, many more, and a listing that is another where half of it, or the number before or behind
/// it, is named.
fn of_no_steps(input: &[u8], output: &str, kind: &str, readings: u64) -> io::Result<Vec<String>> {
    let mut found = Vec::new();
    if [64, 65, 128, 129, 130].contains(&readings) {
        found.push(format!("no steps, {kind}: {readings} readings"));
    }
    if readings > 150 {
        found.push(format!("no steps, {kind}: more than 150 readings"));
    }
    for steps in [32, 63, 65] {
        let named = [format!("steps {steps}\n").as_bytes(), input].concat();
        if listing::list(&named[..])? != output.as_bytes() {
            found.push(format!("no steps, {kind}: another listing by {steps}"));
        }
    }
    // A bucket's third field is its least reading.
    let least = |row: &str| row.split(' ').nth(2).map(str::to_string);
    if output
        .lines()
        .filter_map(least)
        .any(|least| least.starts_with('-'))
    {
        found.push(format!("no steps, {kind}: negative readings"));
    }
    Ok(found)
}

/// A line for each row whose sum of least and largest is odd: a level is rounded there, below 0 and above it.
fn of_sums(output: &str) -> io::Result<Vec<String>> {
    let mut found = Vec::new();
    for row in output.lines() {
        if let [_, _, least, largest, _] = row.split(' ').collect::<Vec<_>>()[..] {
            let sum = signed(least)? + signed(largest)?;
            if sum % 2 != 0 {
                let sign = if sum < 0 { "negative" } else { "positive" };
                found.push(format!("row of a {sign} odd sum"));
            }
        }
    }
    Ok(found)
}

/// Where the end of a read cuts a line of the longest that are read, by the bytes of the line before the cut.
fn of_cuts(input: &[u8]) -> Vec<String> {
    let mut found = Vec::new();
    for cut in (READ..input.len()).step_by(READ) {
        let before = input[..cut].iter().rev();
        let place = before.take_while(|&&byte| byte != b'\n').count();
        let bytes = place + line_bytes(&input[cut..]);
        if bytes == VALUE_BYTES || bytes == PAIR_BYTES {
            found.push(format!("line of {bytes} bytes cut at {place}"));
        }
    }
    found
}
