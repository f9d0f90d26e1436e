//! The lines that an obeyed script writes.

use crate::calls::{Replayed, State, SLOT};
use crate::command::{Command, Name, Word};
use crate::counts::Counts;
use crate::session::{Answer, Session, PLACES};
use std::io::{self, BufRead, Write};

/// So much text is gathered before it is written.
const GATHERED: usize = 65_536;

/// Obeys a whole script, writes the lines as it goes, and answers what was met.
pub fn obey(script: impl BufRead, out: &mut impl Write) -> io::Result<Counts> {
    let mut session = Session::new();
    let mut counts = Counts::default();
    let mut text = Vec::new();
    for line in script.lines() {
        let line = line?;
        match Command::of_line(&line).map_err(io::Error::other)? {
            None => counts.heading(&line),
            Some(command) => {
                counts.before(&session, &command);
                let answer = session.obey(&command);
                counts.after(&session, &command, &answer);
                write_line(&session, &command, &answer, &mut text);
            }
        }
        if text.len() >= GATHERED {
            out.write_all(&text)?;
            text.clear();
        }
    }
    out.write_all(&text)?;
    Ok(counts)
}

/// The lines of a script in memory.
pub fn lines(script: &str) -> String {
    let mut text = Vec::new();
    obey(script.as_bytes(), &mut text).expect("a script, and memory that takes any text");
    String::from_utf8(text).expect("only ASCII is written")
}

fn write_line(session: &Session, command: &Command, answer: &Answer, text: &mut Vec<u8>) {
    match answer {
        Answer::Nothing => return,
        Answer::Printed => return text.extend(&session.output[..session.drawn]),
        _ => {}
    }
    text.extend(command.word.text().bytes());
    match answer {
        Answer::Number(number) => signed(text, *number),
        Answer::Shown => {
            numbers(text, &session.fields());
            for &number in session.lent_numbers() {
                signed(text, number);
            }
        }
        _ => {
            answered(session, command, answer, text);
            lent(session, command, text);
        }
    }
    text.push(b'\n');
}

/// Refusal, place, and what is handed back.
fn answered(session: &Session, command: &Command, answer: &Answer, text: &mut Vec<u8>) {
    match answer.refusal() {
        Some(refusal) => numbers(text, &[u64::from(refusal.number), refusal.place]),
        None => numbers(text, &[0, 0]),
    }
    match answer {
        Answer::State(Ok(after)) => numbers(text, &fields(after)),
        Answer::State(Err(_)) => match command.word {
            Word::Open | Word::Load => numbers(text, &[0; 7]),
            _ => numbers(text, &session.fields()),
        },
        // The session has gone on with the state after the accepted ones, or kept the one that was given.
        Answer::Fed(fed) => {
            numbers(text, &session.fields());
            numbers(text, &[fed.accepted]);
        }
        Answer::Replayed(Ok(replayed)) => {
            let Replayed {
                state,
                accepted,
                refused,
            } = replayed;
            numbers(text, &fields(state));
            numbers(text, &[*accepted, *refused]);
        }
        Answer::Replayed(Err(_)) => numbers(text, &[0; 9]),
        Answer::Found(found) => {
            let shown = found.map_or([0; 4], |held| {
                [held.level, held.error, held.least, held.largest]
            });
            for number in shown {
                signed(text, number);
            }
        }
        Answer::Over(over) => {
            let hit = over.unwrap_or(None);
            let (index, start) = hit.unwrap_or((0, 0));
            numbers(text, &[u64::from(hit.is_some()), index, start]);
        }
        Answer::Worst(worst) => signed(text, worst.unwrap_or(0)),
        Answer::Wrote(written) => numbers(text, &[written.unwrap_or(0)]),
        Answer::Number(_) | Answer::Shown | Answer::Printed | Answer::Nothing => {}
    }
}

fn fields(state: &State) -> [u64; 7] {
    let kind = state.kind as u64;
    [
        kind,
        state.base,
        state.gaps,
        state.used,
        state.runs,
        state.readings,
        state.edition,
    ]
}

fn lent(session: &Session, command: &Command, text: &mut Vec<u8>) {
    let room = session.lent_numbers();
    let of_room = checksum(room.len(), room.iter().map(|&number| number as u64));
    sum(text, b" room ", of_room);
    match command.word {
        Word::NextTold | Word::LateTold => {
            let tally = &session.tally;
            text.extend(b" tally");
            numbers(
                text,
                &[tally.accepted, tally.refused, tally.merges].map(u64::from),
            );
        }
        Word::Row => {
            let places = command.number(Name::Places).min(PLACES as u64) as usize;
            let fields = session.row[..places].iter().flat_map(|record| {
                let [start, count] = [record.start, record.count].map(u64::from);
                let [least, largest] = [record.least, record.largest].map(i64::from);
                [start, count, least as u64, largest as u64]
            });
            sum(text, b" row ", checksum(places * SLOT, fields));
        }
        Word::Save => sum(text, b" output ", of_bytes(session.lent_output(command))),
        Word::Picture => {
            sum(text, b" caption ", of_bytes(session.lent_caption(command)));
            sum(text, b" output ", of_bytes(session.lent_output(command)));
        }
        Word::Load | Word::Replay => sum(text, b" file ", of_bytes(session.lent_file())),
        _ => {}
    }
}

fn of_bytes(bytes: &[u8]) -> u64 {
    checksum(bytes.len(), bytes.iter().copied().map(u64::from))
}

fn sum(text: &mut Vec<u8>, what: &[u8], sum: u64) {
    text.extend(what);
    for digit in (0..16).rev() {
        let value = (sum >> (4 * digit)) as usize % 16;
        text.push(b"0123456789abcdef"[value]);
    }
}

/// In decimal, a space before each.
fn numbers(text: &mut Vec<u8>, all: &[u64]) {
    for &number in all {
        text.push(b' ');
        decimal(text, number);
    }
}

fn signed(text: &mut Vec<u8>, number: i64) {
    text.push(b' ');
    if number < 0 {
        text.push(b'-');
    }
    decimal(text, number.unsigned_abs());
}

fn decimal(text: &mut Vec<u8>, mut number: u64) {
    let mut digits = [0; 20];
    let mut at = digits.len();
    loop {
        at -= 1;
        digits[at] = b'0' + (number % 10) as u8;
        number /= 10;
        if number == 0 {
            break;
        }
    }
    text.extend_from_slice(&digits[at..]);
}

pub fn checksum(count: usize, numbers: impl Iterator<Item = u64>) -> u64 {
    numbers.fold(count as u64, |sum, number| {
        let mut mixed = sum ^ number;
        mixed ^= mixed << 13;
        mixed ^= mixed >> 7;
        mixed ^= mixed << 17;
        mixed.wrapping_add(11_400_714_819_323_198_485)
    })
}
