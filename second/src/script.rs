//! A script that is being written: its text, and the session that it makes, by which the next commands are chosen.

use crate::calls::{self, Size, MOST_BASE, MOST_STEPS, RECORD_BYTES, SLOT};
use crate::command::{Command, Name, Word};
use crate::logger::{Frame, FRAME_BYTES};
use crate::made;
use crate::random::Random;
use crate::rule::{self, Bucket, Edition, Kind, EDITIONS};
use crate::session::{record_of_bytes, Session, NUMBERS};

pub struct Script {
    pub text: String,
    pub session: Session,
    pub random: Random,
    pub calls: u64,
    most_calls: u64,
    /// The edition that opens, loads and replays name; where there is none it is one by chance.
    edition: Option<u64>,
    /// What the chance of editions is taken from, so that all else is the same in either.
    editions: Random,
}

/// So many of ten traces are of the second edition, the others of the first.
const OF_THE_SECOND: u64 = 4;
/// One load in so many is in any edition, the others in that of the trace at hand.
const LOADED_IN_ANY: u64 = 6;

impl Script {
    pub fn new(seed: u64) -> Script {
        Script::of_calls(seed, u64::MAX)
    }

    /// Takes no command once it has so many calls.
    pub fn of_calls(seed: u64, most_calls: u64) -> Script {
        Script {
            text: String::new(),
            session: Session::new(),
            random: Random::new(seed),
            calls: 0,
            most_calls,
            edition: None,
            editions: Random::new(seed ^ 8),
        }
    }

    pub fn is_full(&self) -> bool {
        self.calls == self.most_calls
    }

    /// The whole line, from its `#` on.
    pub fn heading(&mut self, line: &str) {
        self.text.push_str(line);
        self.text.push('\n');
    }

    /// Answers whether nothing was refused.
    pub fn give(&mut self, word: Word, named: &[(Name, u64)]) -> bool {
        if self.is_full() {
            return true;
        }
        let command = Command::new(word, named);
        command.write_line(&mut self.text);
        self.calls += u64::from(word.is_call());
        self.session.obey(&command).refusal().is_none()
    }

    pub fn chance(&mut self, of: u64) -> bool {
        self.random.below(of) == 0
    }

    /// What the commands open, load and replay is in this edition, which may be any number.
    pub fn in_edition(&mut self, edition: u64, commands: impl FnOnce(&mut Script)) {
        let before = self.edition.replace(edition);
        commands(self);
        self.edition = before;
    }

    /// In both editions, one after the other.
    pub fn in_each_edition(&mut self, mut commands: impl FnMut(&mut Script)) {
        for edition in EDITIONS {
            self.in_edition(edition.number(), &mut commands);
        }
    }

    fn edition_for(&mut self, word: Word) -> u64 {
        if let Some(edition) = self.edition {
            return edition;
        }
        let at_hand = Edition::of_number(self.session.state.edition);
        let stays = word == Word::Load && self.editions.below(LOADED_IN_ANY) > 0;
        let edition = at_hand.filter(|_| stays).unwrap_or_else(|| {
            match self.editions.below(10) < OF_THE_SECOND {
                true => Edition::Second,
                false => Edition::First,
            }
        });
        edition.number()
    }

    /// An open, a load or a replay by any four numbers, in the edition that is set or in one by chance; `by` is left out where it is 0. Answers whether
    /// it was accepted.
    pub fn named(&mut self, word: Word, kind: u64, size: u64, gaps: u64, by: u64) -> bool {
        let settings = [
            (Name::Edition, self.edition_for(word)),
            (Name::Kind, kind),
            (Name::Size, size),
            (Name::Gaps, gaps),
            (Name::By, by),
        ];
        let given = if by == 0 { 4 } else { 5 };
        self.give(word, &settings[..given])
    }

    pub fn settings(&mut self, word: Word, kind: u64, size: Size, gaps: u64) -> bool {
        match size {
            Size::Steps(steps) => self.named(word, kind, steps, gaps, 0),
            Size::Base(base) => self.named(word, kind, base, gaps, 1),
        }
    }

    /// The kind may be any number.
    pub fn open_as(&mut self, kind: u64, size: Size, gaps: u64) {
        self.settings(Word::Open, kind, size, gaps);
    }

    /// In a room of so many numbers.
    pub fn open(&mut self, kind: Kind, size: Size, gaps: u64, numbers: usize) {
        self.room(numbers);
        self.open_as(kind as u64, size, gaps);
    }

    /// In a room with no number too many; the size must be in bounds.
    pub fn open_fitting(&mut self, kind: Kind, size: Size, gaps: u64) {
        let base = size.base().expect("a size in bounds");
        self.open(kind, size, gaps, calls::needed_numbers(kind, base, gaps));
    }

    /// The kind may be any number. Answers whether it was accepted.
    pub fn load_as(&mut self, kind: u64, size: Size, gaps: u64) -> bool {
        self.settings(Word::Load, kind, size, gaps)
    }

    /// The kind may be any number. Answers whether it was accepted.
    pub fn replay_as(&mut self, kind: u64, size: Size, gaps: u64) -> bool {
        self.settings(Word::Replay, kind, size, gaps)
    }

    pub fn next(&mut self, value: i32) {
        self.give(Word::Next, &[(Name::Value, wide(value))]);
    }

    pub fn late(&mut self, tick: u32, value: i32) {
        self.read(Word::Late, tick, value);
    }

    /// By the call of this kind of trace.
    pub fn read_in(&mut self, kind: Kind, tick: u32, value: i32) {
        match kind {
            Kind::InOrder => self.next(value),
            Kind::Late => self.late(tick, value),
        }
    }

    /// By any of the four words; the tick is left out where there is none.
    pub fn read(&mut self, word: Word, tick: u32, value: i32) {
        let value = (Name::Value, wide(value));
        match word {
            Word::Next | Word::NextTold => self.give(word, &[value]),
            _ => self.give(word, &[(Name::Tick, u64::from(tick)), value]),
        };
    }

    pub fn lookup(&mut self, tick: u32) {
        self.give(Word::Lookup, &[(Name::Tick, u64::from(tick))]);
    }

    /// Lookups a step apart.
    pub fn sweep(&mut self, tick: u32, step: u32, count: u32) {
        for turn in 0..count {
            self.lookup(tick.wrapping_add(step.wrapping_mul(turn)));
        }
    }

    pub fn over(&mut self, first: u32, last: u32, bar: i32) {
        let named = [
            (Name::First, u64::from(first)),
            (Name::Last, u64::from(last)),
            (Name::Bar, wide(bar)),
        ];
        self.give(Word::Over, &named);
    }

    pub fn worst(&mut self) {
        self.give(Word::Worst, &[]);
    }

    pub fn row(&mut self, places: u64) {
        self.give(Word::Row, &[(Name::Places, places)]);
    }

    pub fn save(&mut self, bytes: u64) {
        self.give(Word::Save, &[(Name::Bytes, bytes)]);
    }

    /// The caption is so many bytes of the file from an index on.
    pub fn picture(&mut self, from: usize, letters: usize, bytes: u64) {
        let named = [
            (Name::From, from as u64),
            (Name::Letters, letters as u64),
            (Name::Bytes, bytes),
        ];
        self.give(Word::Picture, &named);
    }

    pub fn room(&mut self, numbers: usize) {
        if self.session.lent != numbers {
            self.give(Word::Room, &[(Name::Numbers, numbers as u64)]);
        }
    }

    pub fn fill(&mut self, value: i64) {
        self.give(Word::Fill, &[(Name::Value, value as u64)]);
    }

    pub fn set(&mut self, at: usize, value: i64) {
        let named = [(Name::At, at as u64), (Name::Value, value as u64)];
        self.give(Word::Set, &named);
    }

    pub fn state(&mut self, name: Name, number: u64) {
        self.give(Word::State, &[(name, number)]);
    }

    pub fn blank(&mut self, bytes: u64, byte: u8) {
        let named = [(Name::Bytes, bytes), (Name::Value, u64::from(byte))];
        self.give(Word::Blank, &named);
    }

    pub fn slot(&mut self, at: usize, numbers: [i64; SLOT]) {
        self.four(Word::Slot, at, numbers);
    }

    pub fn record(&mut self, at: usize, numbers: [i64; SLOT]) {
        self.four(Word::Record, at, numbers);
    }

    fn four(&mut self, word: Word, at: usize, numbers: [i64; SLOT]) {
        let [start, count, least, largest] = numbers.map(|number| number as u64);
        let named = [
            (Name::At, at as u64),
            (Name::Start, start),
            (Name::Count, count),
            (Name::Least, least),
            (Name::Largest, largest),
        ];
        self.give(word, &named);
    }

    /// The first slots and the three counts of the state, for a table that need not be sound; other slots keep what they hold.
    pub fn lay(&mut self, table: &[[i64; SLOT]], runs: u64) {
        for (at, &slot) in table.iter().enumerate() {
            self.slot(at, slot);
        }
        let readings = table.iter().map(|slot| slot[1] as u64).sum();
        let counts = [
            (Name::Used, table.len() as u64),
            (Name::Runs, runs),
            (Name::Readings, readings),
        ];
        self.give(Word::State, &counts);
    }

    pub fn lay_sound(&mut self, table: &[Bucket]) {
        let slots: Vec<[i64; SLOT]> = table.iter().map(made::slot).collect();
        self.lay(&slots, rule::runs(table));
    }

    /// Makes the file what is said, by as few changes as are seen at once.
    pub fn file(&mut self, bytes: &[u8]) {
        self.file_from(0, bytes);
        self.file_length(bytes.len());
    }

    /// From a record of the file on, whatever is lent of it.
    pub fn file_from(&mut self, first: usize, bytes: &[u8]) {
        for (at, record) in (first..).zip(bytes.chunks(RECORD_BYTES)) {
            let from = at * RECORD_BYTES;
            let there = &self.session.file[from..from + record.len()];
            let differs: Vec<usize> = (0..record.len())
                .filter(|&index| there[index] != record[index])
                .collect();
            if differs.len() < 2 || record.len() < RECORD_BYTES {
                for index in differs {
                    self.byte(from + index, record[index]);
                }
            } else {
                self.record(at, fields(record));
            }
        }
    }

    /// Makes the file this recording, by changes of the records that differ.
    pub fn recording(&mut self, frames: &[Frame]) {
        for (at, frame) in frames.iter().enumerate() {
            let there = &self.session.file[at * FRAME_BYTES..][..FRAME_BYTES];
            if *there != frame.bytes() {
                self.frame(at as u64, u64::from(frame.counter), wide(frame.value));
            }
        }
        self.file_length(frames.len() * FRAME_BYTES);
    }

    /// Of the counter the lowest 16 bits, of the value the lowest 32.
    pub fn frame(&mut self, at: u64, counter: u64, value: u64) {
        let named = [
            (Name::At, at),
            (Name::Counter, counter),
            (Name::Value, value),
        ];
        self.give(Word::Frame, &named);
    }

    pub fn file_length(&mut self, bytes: usize) {
        if self.session.length != bytes {
            self.give(Word::File, &[(Name::Bytes, bytes as u64)]);
        }
    }

    pub fn byte(&mut self, at: usize, byte: u8) {
        let named = [(Name::At, at as u64), (Name::Value, u64::from(byte))];
        self.give(Word::Byte, &named);
    }

    /// The record of the file as it stands.
    pub fn record_there(&self, at: usize) -> [i64; SLOT] {
        fields(&self.session.file[at * RECORD_BYTES..][..RECORD_BYTES])
    }

    /// As many of the slots in use as the room has.
    pub fn used(&self) -> usize {
        self.session.state.used.min((NUMBERS / SLOT) as u64) as usize
    }
}

/// Start, count, least and largest of a record's bytes.
fn fields(bytes: &[u8]) -> [i64; SLOT] {
    let record = record_of_bytes(bytes);
    let [start, count] = [record.start, record.count].map(i64::from);
    let [least, largest] = [record.least, record.largest].map(i64::from);
    [start, count, least, largest]
}

/// The bits of a signed number.
pub fn wide(number: i32) -> u64 {
    i64::from(number) as u64
}

/// The base limit in bounds that is next to the one named.
pub fn nearest_base(size: u64, by: u64) -> u64 {
    match by {
        0 => 2 * size.clamp(1, MOST_STEPS),
        _ => size.clamp(1, MOST_BASE),
    }
}
