//! What a script has made so far, and how each command changes it and what it answers.

use crate::calls::{
    self, Fed, Held, Record, Refusal, Replayed, Size, State, Tally, RECORD_BYTES, SLOT,
};
use crate::clauses;
use crate::command::{Command, Name, Word};
use crate::logger::{Frame, FRAME_BYTES};
use crate::rule::{Bucket, Kind};

/// Numbers of the whole room.
pub const NUMBERS: usize = 8_192;
/// Bytes of the whole output.
pub const BYTES: usize = 65_536;
/// Bytes of the whole file, and the saved records and the logger's records that it has room for.
pub const FILE_BYTES: usize = 655_360;
pub const FILE_RECORDS: usize = FILE_BYTES / RECORD_BYTES;
pub const FILE_FRAMES: usize = FILE_BYTES / FRAME_BYTES;
/// Buckets of the whole row.
pub const PLACES: usize = BYTES / RECORD_BYTES;
/// Ticks and values of the whole list.
pub const READINGS: usize = 4_096;

const NO_RECORD: Record = Record {
    start: 0,
    count: 0,
    least: 0,
    largest: 0,
};

/// What a command answers.
pub enum Answer {
    State(Result<State, Refusal>),
    Fed(Fed),
    Replayed(Result<Replayed, Refusal>),
    Found(Result<Held, Refusal>),
    Over(Result<Option<(u64, u64)>, Refusal>),
    Worst(Result<i64, Refusal>),
    Wrote(Result<u64, Refusal>),
    Number(i64),
    Shown,
    Printed,
    Nothing,
}

impl Answer {
    pub fn refusal(&self) -> Option<Refusal> {
        match self {
            Answer::State(answer) => answer.err(),
            Answer::Fed(fed) => fed.refusal,
            Answer::Replayed(answer) => answer.err(),
            Answer::Found(answer) => answer.err(),
            Answer::Over(answer) => answer.err(),
            Answer::Worst(answer) => answer.err(),
            Answer::Wrote(answer) => answer.err(),
            Answer::Number(_) | Answer::Shown | Answer::Printed | Answer::Nothing => None,
        }
    }
}

pub struct Session {
    pub state: State,
    /// The kind as the script gave it; the state's kind is the one that it stands for.
    pub kind: u64,
    pub tally: Tally,
    pub lent: usize,
    pub room: Vec<i64>,
    pub length: usize,
    pub file: Vec<u8>,
    pub row: Vec<Record>,
    pub output: Vec<u8>,
    /// The bytes of the last picture.
    pub drawn: usize,
    pub ticks: Vec<u32>,
    pub values: Vec<i32>,
}

impl Session {
    pub fn new() -> Session {
        Session {
            state: State::default(),
            kind: 0,
            tally: Tally::default(),
            lent: 0,
            room: vec![0; NUMBERS],
            length: 0,
            file: vec![0; FILE_BYTES],
            row: vec![NO_RECORD; PLACES],
            output: vec![0; BYTES],
            drawn: 0,
            ticks: vec![0; READINGS],
            values: vec![0; READINGS],
        }
    }

    pub fn lent_numbers(&self) -> &[i64] {
        &self.room[..self.lent]
    }

    pub fn lent_file(&self) -> &[u8] {
        &self.file[..self.length]
    }

    /// What a picture is lent as its caption.
    pub fn lent_caption(&self, command: &Command) -> &[u8] {
        part(&self.file, command, Name::Letters)
    }

    /// What a save or a picture is lent of the output.
    pub fn lent_output(&self, command: &Command) -> &[u8] {
        &self.output[..at_most(command.number(Name::Bytes), BYTES)]
    }

    /// The ticks that many readings are lent.
    pub fn lent_ticks(&self, command: &Command) -> &[u32] {
        part(&self.ticks, command, Name::Ticks)
    }

    /// The values that many readings are lent.
    pub fn lent_values(&self, command: &Command) -> &[i32] {
        part(&self.values, command, Name::Values)
    }

    /// Kind, C, K, slots in use, runs, readings and edition of the state at hand.
    pub fn fields(&self) -> [u64; 7] {
        let State {
            base,
            gaps,
            used,
            runs,
            readings,
            edition,
            ..
        } = self.state;
        [self.kind, base, gaps, used, runs, readings, edition]
    }

    pub fn is_unsound(&self) -> bool {
        clauses::broken(self.state, self.lent_numbers()).contains(&true)
    }

    /// Of a sound trace, whose slots in use are all there.
    pub fn buckets(&self) -> Vec<Bucket> {
        let slots = self.room[..self.state.used as usize * SLOT].chunks_exact(SLOT);
        let bucket = |slot: &[i64]| Bucket {
            start: slot[0] as u64,
            count: slot[1] as u64,
            least: slot[2],
            largest: slot[3],
        };
        slots.map(bucket).collect()
    }

    /// As the command gives it, or as it is at hand.
    pub fn setting(&self, command: &Command, name: Name) -> u64 {
        let fields = self.fields();
        let at_hand = fields.get(name as usize).copied();
        command.given(name).or(at_hand).unwrap_or(0)
    }

    pub fn obey(&mut self, command: &Command) -> Answer {
        match command.word {
            Word::Open | Word::Next | Word::Late | Word::NextTold | Word::LateTold | Word::Load => {
                self.change(command)
            }
            Word::NextMany | Word::LateMany => self.feed(command),
            Word::Replay => self.replay(command),
            Word::Lookup => {
                let tick = command.number(Name::Tick) as u32;
                Answer::Found(calls::lookup(self.state, self.lent_numbers(), tick))
            }
            Word::Over => {
                let [first, last] = [Name::First, Name::Last].map(|end| command.number(end) as u32);
                let bar = command.number(Name::Bar) as i32;
                let room = self.lent_numbers();
                Answer::Over(calls::first_over(self.state, room, first, last, bar))
            }
            Word::Worst => Answer::Worst(calls::worst(self.state, self.lent_numbers())),
            Word::Row => {
                let places = at_most(command.number(Name::Places), PLACES);
                let room = &self.room[..self.lent];
                Answer::Wrote(calls::row(self.state, room, &mut self.row[..places]))
            }
            Word::Save => {
                let bytes = at_most(command.number(Name::Bytes), BYTES);
                let room = &self.room[..self.lent];
                Answer::Wrote(calls::save(self.state, room, &mut self.output[..bytes]))
            }
            Word::Picture => self.draw(command),
            Word::Level => Answer::Number(bucket(command).level()),
            Word::Error => Answer::Number(bucket(command).error()),
            Word::Show => Answer::Shown,
            Word::Print => Answer::Printed,
            _ => {
                self.prepare(command);
                Answer::Nothing
            }
        }
    }

    /// A call that answers a state.
    fn change(&mut self, command: &Command) -> Answer {
        let edition = self.setting(command, Name::Edition);
        let kind = kind_of(self.setting(command, Name::Kind));
        let size = size_of(command);
        let gaps = self.setting(command, Name::Gaps);
        let room = &mut self.room[..self.lent];
        let tick = command.number(Name::Tick) as u32;
        let value = command.number(Name::Value) as i32;
        let answer = match command.word {
            Word::Open => calls::open(edition, kind, size, gaps, room),
            Word::Load => {
                let file = &self.file[..self.length];
                calls::load(edition, kind, size, gaps, file, room)
            }
            Word::Next => calls::next(self.state, room, value),
            Word::Late => calls::late(self.state, room, tick, value),
            Word::NextTold => calls::next_tallied(self.state, room, value, &mut self.tally),
            _ => calls::late_tallied(self.state, room, tick, value, &mut self.tally),
        };
        if let Ok(after) = answer {
            self.go_on(after);
        }
        Answer::State(answer)
    }

    /// Many readings; where none is accepted the state at hand stays as the script gave it.
    fn feed(&mut self, command: &Command) -> Answer {
        let values = part(&self.values, command, Name::Values);
        let ticks = part(&self.ticks, command, Name::Ticks);
        let room = &mut self.room[..self.lent];
        let fed = match command.word {
            Word::NextMany => calls::next_many(self.state, room, values),
            _ => calls::late_many(self.state, room, ticks, values),
        };
        if fed.accepted > 0 {
            self.go_on(fed.state);
        }
        Answer::Fed(fed)
    }

    fn replay(&mut self, command: &Command) -> Answer {
        let edition = self.setting(command, Name::Edition);
        let size = size_of(command);
        let gaps = self.setting(command, Name::Gaps);
        let room = &mut self.room[..self.lent];
        let answer = calls::replay(edition, size, gaps, &self.file[..self.length], room);
        if let Ok(replayed) = answer {
            self.go_on(replayed.state);
        }
        Answer::Replayed(answer)
    }

    fn draw(&mut self, command: &Command) -> Answer {
        let bytes = at_most(command.number(Name::Bytes), BYTES);
        let room = &self.room[..self.lent];
        let caption = part(&self.file, command, Name::Letters);
        let answer = calls::picture(self.state, room, caption, &mut self.output[..bytes]);
        self.drawn = answer.unwrap_or(0) as usize;
        Answer::Wrote(answer)
    }

    fn go_on(&mut self, after: State) {
        self.kind = after.kind as u64;
        self.state = after;
    }

    /// A change to what calls are given.
    fn prepare(&mut self, command: &Command) {
        let number = |name| command.number(name);
        match command.word {
            Word::State => self.set_state(command),
            Word::Tally => self.set_tally(command),
            Word::Room => self.lent = at_most(number(Name::Numbers), NUMBERS),
            Word::Fill => self.room[..self.lent].fill(number(Name::Value) as i64),
            Word::Set => {
                let at = at_most(number(Name::At), NUMBERS);
                if let Some(there) = self.room.get_mut(at) {
                    *there = number(Name::Value) as i64;
                }
            }
            Word::Slot => {
                let at = at_most(number(Name::At), NUMBERS / SLOT);
                for (there, name) in self.room.iter_mut().skip(at * SLOT).zip(FIELDS) {
                    *there = number(name) as i64;
                }
            }
            Word::File => self.length = at_most(number(Name::Bytes), FILE_BYTES),
            Word::Byte => {
                let at = at_most(number(Name::At), FILE_BYTES);
                if let Some(there) = self.file.get_mut(at) {
                    *there = number(Name::Value) as u8;
                }
            }
            Word::Record => {
                let at = at_most(number(Name::At), FILE_RECORDS);
                let fields = FIELDS.map(|name| (number(name) as u32).to_le_bytes());
                let there = self.file.iter_mut().skip(at * RECORD_BYTES);
                for (there, byte) in there.zip(fields.as_flattened()) {
                    *there = *byte;
                }
            }
            Word::Frame => {
                let from = at_most(number(Name::At), FILE_FRAMES) * FRAME_BYTES;
                let frame = Frame {
                    counter: number(Name::Counter) as u16,
                    value: number(Name::Value) as i32,
                };
                if let Some(there) = self.file.get_mut(from..from + FRAME_BYTES) {
                    there.copy_from_slice(&frame.bytes());
                }
            }
            Word::Copy => {
                let [from, to, count] = [Name::From, Name::To, Name::Count]
                    .map(|name| at_most(number(name), FILE_RECORDS + 1) * RECORD_BYTES);
                if from.max(to) + count <= FILE_BYTES {
                    self.file.copy_within(from..from + count, to);
                }
            }
            Word::Reading => {
                let at = at_most(number(Name::At), READINGS);
                if at < READINGS {
                    self.ticks[at] = number(Name::Tick) as u32;
                    self.values[at] = number(Name::Value) as i32;
                }
            }
            Word::Take => {
                self.length = at_most(number(Name::Bytes), BYTES);
                self.file[..self.length].copy_from_slice(&self.output[..self.length]);
            }
            _ => self.blank(
                at_most(number(Name::Bytes), BYTES),
                number(Name::Value) as u8,
            ),
        }
    }

    fn set_state(&mut self, command: &Command) {
        self.kind = self.setting(command, Name::Kind);
        self.state = State {
            kind: kind_of(self.kind),
            base: self.setting(command, Name::Base),
            gaps: self.setting(command, Name::Gaps),
            used: self.setting(command, Name::Used),
            runs: self.setting(command, Name::Runs),
            readings: self.setting(command, Name::Readings),
            edition: self.setting(command, Name::Edition),
        };
    }

    fn set_tally(&mut self, command: &Command) {
        let set = |count: &mut u32, name| {
            if let Some(number) = command.given(name) {
                *count = number as u32;
            }
        };
        set(&mut self.tally.accepted, Name::Accepted);
        set(&mut self.tally.refused, Name::Refused);
        set(&mut self.tally.merges, Name::Merges);
    }

    fn blank(&mut self, bytes: usize, byte: u8) {
        self.output[..bytes].fill(byte);
        for (index, record) in self.row.iter_mut().enumerate() {
            let left = bytes.saturating_sub(index * RECORD_BYTES);
            if left == 0 {
                return;
            }
            let mut lying = record_bytes(record);
            lying[..left.min(RECORD_BYTES)].fill(byte);
            *record = record_of_bytes(&lying);
        }
    }
}

impl Default for Session {
    fn default() -> Session {
        Session::new()
    }
}

const FIELDS: [Name; SLOT] = [Name::Start, Name::Count, Name::Least, Name::Largest];

fn at_most(number: u64, most: usize) -> usize {
    number.min(most as u64) as usize
}

/// As much of a list or of the file as a command lends, from where it says.
fn part<'a, T>(list: &'a [T], command: &Command, name: Name) -> &'a [T] {
    let behind = &list[at_most(command.number(Name::From), list.len())..];
    &behind[..at_most(command.number(name), behind.len())]
}

pub fn kind_of(number: u64) -> Kind {
    match number {
        0 => Kind::InOrder,
        _ => Kind::Late,
    }
}

/// As an open, a load or a replay names it.
pub fn size_of(command: &Command) -> Size {
    let size = command.number(Name::Size);
    match command.number(Name::By) {
        0 => Size::Steps(size),
        _ => Size::Base(size),
    }
}

fn bucket(command: &Command) -> Bucket {
    Bucket {
        start: u64::from(command.number(Name::Start) as u32),
        count: u64::from(command.number(Name::Count) as u32),
        least: i64::from(command.number(Name::Least) as i32),
        largest: i64::from(command.number(Name::Largest) as i32),
    }
}

/// As a record lies in memory, and in a saved file.
pub fn record_bytes(record: &Record) -> [u8; RECORD_BYTES] {
    let mut bytes = [0; RECORD_BYTES];
    bytes[0..4].copy_from_slice(&record.start.to_le_bytes());
    bytes[4..8].copy_from_slice(&record.count.to_le_bytes());
    bytes[8..12].copy_from_slice(&record.least.to_le_bytes());
    bytes[12..16].copy_from_slice(&record.largest.to_le_bytes());
    bytes
}

pub fn record_of_bytes(bytes: &[u8]) -> Record {
    let field = |at: usize| [bytes[at], bytes[at + 1], bytes[at + 2], bytes[at + 3]];
    Record {
        start: u32::from_le_bytes(field(0)),
        count: u32::from_le_bytes(field(4)),
        least: i32::from_le_bytes(field(8)),
        largest: i32::from_le_bytes(field(12)),
    }
}
