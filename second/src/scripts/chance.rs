//! Calls by chance from a seed: traces of both kinds, with states, rooms and files changed in one place, and settings, rooms, captions and outputs that
//! fit or do not; now and then a recording takes the trace's place.

use crate::calls::{self, Size, MOST_BASE, MOST_GAPS, MOST_STEPS, RECORD_BYTES, SLOT};
use crate::command::{Name, Word};
use crate::logger::{Frame, FRAME_BYTES};
use crate::made::{self, NO_EDITIONS};
use crate::picture;
use crate::rule::{self, Bucket, Kind, TICKS};
use crate::script::Script;
use crate::session::{FILE_RECORDS, NUMBERS, PLACES};

const FIELDS: [Name; 7] = [
    Name::Kind,
    Name::Base,
    Name::Gaps,
    Name::Used,
    Name::Runs,
    Name::Readings,
    Name::Edition,
];

/// The last record of the file, by way of which two are swapped.
const SPARE_RECORD: usize = PLACES - 1;
/// The record of the file from which on captions stand, above all that is loaded.
const CAPTIONS: usize = FILE_RECORDS - 100;

/// A script of so many calls.
pub fn of_seed(seed: u64, calls: u64) -> Script {
    let mut script = Script::of_calls(seed, calls);
    while !script.is_full() {
        script.trace();
    }
    script
}

impl Script {
    /// One trace from its opening, and some calls of it.
    fn trace(&mut self) {
        let kind = self.random.choice(&[Kind::InOrder, Kind::Late]);
        let large = self.chance(300);
        let most = if large { 256 } else { 6 };
        let base = self.random.between(1, 2 * most) as u64;
        let gaps = self.random.between(1, most) as u64;
        let size = self.size_of(base);
        if self.chance(2) {
            self.refused_open(kind, size, gaps);
        }
        let fitting = calls::needed_numbers(kind, base, gaps);
        let longer = self.random.choice(&[0, 0, 1, 3, 8]);
        for index in fitting..fitting + longer {
            let number = self.random.number() as i64;
            self.set(index, number);
        }
        self.room(fitting + longer);
        let number = self.number_of(kind);
        self.open_as(number, size, gaps);
        if large || self.chance(2) {
            let table = self.table();
            self.lay_sound(&table);
        }
        if self.chance(4) {
            self.other_tally();
        }
        for _ in 0..self.random.between(4, 40) {
            self.act();
        }
    }

    /// Any number but 0 stands for the late kind.
    fn number_of(&mut self, kind: Kind) -> u64 {
        match kind {
            Kind::InOrder => 0,
            Kind::Late => self.random.choice(&[1, 1, 1, 2, 1 << 32, u64::MAX]),
        }
    }

    /// By either name where the base limit is 2B.
    fn size_of(&mut self, base: u64) -> Size {
        if base % 2 == 0 && self.chance(2) {
            Size::Steps(base / 2)
        } else {
            Size::Base(base)
        }
    }

    /// The size is in bounds.
    fn refused_open(&mut self, kind: Kind, size: Size, gaps: u64) {
        let base = size.base().expect("a size in bounds");
        let fitting = calls::needed_numbers(kind, base, gaps);
        if self.chance(4) {
            self.in_no_edition(|script| script.any_open(kind, size, gaps, fitting));
            return;
        }
        let (size, gaps, lent) = match self.random.below(3) {
            0 => (self.size_beyond(), gaps, fitting),
            1 => (size, self.beyond(MOST_GAPS), fitting),
            _ => {
                let short = self.random.choice(&[1, 1, 4, fitting]);
                (size, gaps, fitting - short)
            }
        };
        self.open(kind, size, gaps, lent);
    }

    /// What the commands open, load and replay is in an edition that there is not.
    fn in_no_edition(&mut self, commands: impl FnOnce(&mut Script)) {
        let edition = self.random.choice(&NO_EDITIONS);
        self.in_edition(edition, commands);
    }

    /// By these settings or by one that is out of bounds; in a room that they fit or in a short one.
    fn any_open(&mut self, kind: Kind, size: Size, gaps: u64, fitting: usize) {
        let size = match self.random.below(4) {
            0 => self.size_beyond(),
            _ => size,
        };
        let gaps = match self.random.below(4) {
            0 => self.beyond(MOST_GAPS),
            _ => gaps,
        };
        let lent = match self.random.below(4) {
            0 => fitting - 1,
            _ => fitting,
        };
        self.open(kind, size, gaps, lent);
    }

    pub(super) fn size_beyond(&mut self) -> Size {
        let wraps = 1 << 63 | self.random.below(257);
        match self.random.below(5) {
            0 => Size::Steps(wraps),
            1 | 2 => Size::Steps(self.beyond(MOST_STEPS)),
            _ => Size::Base(self.beyond(MOST_BASE)),
        }
    }

    pub(super) fn beyond(&mut self, most: u64) -> u64 {
        let wide = self.random.number() | 1 << 32;
        self.random
            .choice(&[0, most + 1, 65_536, 1 << 32, (1 << 32) + 1, wide, u64::MAX])
    }

    /// A table that the settings allow, or the greatest C where they say more.
    pub(super) fn table(&mut self) -> Vec<Bucket> {
        let state = self.session.state;
        let most = state.base.min(MOST_BASE) as usize;
        let mut table = made::table(&mut self.random, state.kind, most);
        while state.kind == Kind::Late && rule::runs(&table) > state.gaps {
            table.pop();
        }
        table
    }

    fn other_tally(&mut self) {
        for name in [Name::Accepted, Name::Refused, Name::Merges] {
            let count = self.random.choice(&[0, u32::MAX, u32::MAX - 1, 7]);
            self.give(Word::Tally, &[(name, u64::from(count))]);
        }
    }

    fn act(&mut self) {
        match self.random.below(24) {
            0..=6 => self.reading(),
            7 => self.refused_reading(),
            8 => self.about_lookup(),
            9 | 10 => self.changed_field(),
            11 | 12 => self.changed_number(),
            13 | 14 => self.any_row(),
            15 => self.any_save(),
            16..=18 => self.any_load(),
            19 => self.worst(),
            20 => self.any_bucket(),
            21 => self.about_over(),
            22 => self.any_picture(),
            _ if self.chance(8) => self.last_ticks(),
            _ if self.chance(3) => self.any_replay(),
            _ => self.about_lookup(),
        }
    }

    fn value(&mut self) -> i32 {
        let ends = [i32::MIN, i32::MIN + 1, i32::MAX - 1, i32::MAX];
        match self.random.below(8) {
            0 => self.random.choice(&ends),
            1 => self.random.number() as i32,
            2 | 3 => self.random.between(-1000, 1000) as i32,
            _ => self.random.between(-9, 9) as i32,
        }
    }

    /// With the tally now and then.
    fn reading_word(&mut self, kind: Kind) -> Word {
        let told = self.chance(3);
        match (kind, told) {
            (Kind::InOrder, false) => Word::Next,
            (Kind::InOrder, true) => Word::NextTold,
            (Kind::Late, false) => Word::Late,
            (Kind::Late, true) => Word::LateTold,
        }
    }

    /// Of the trace's kind, now and then some of them at one call; a late one is often next to a bucket.
    fn reading(&mut self) {
        if self.chance(8) {
            self.some_readings();
            return;
        }
        let value = self.value();
        let word = self.reading_word(self.session.state.kind);
        let tick = self.tick_to_read();
        self.read(word, tick, value);
    }

    fn tick_to_read(&mut self) -> u32 {
        match self.ticks() {
            Some((start, end)) if !self.chance(3) => {
                let beside = [start.wrapping_sub(1), end, end.wrapping_add(1)];
                self.random.choice(&beside)
            }
            _ => self.random.below(60) as u32,
        }
    }

    /// Seldom of the other kind; late ones by ticks that follow each other or do not, in lists of one length or two.
    fn some_readings(&mut self) {
        let late = (self.session.state.kind == Kind::Late) != self.chance(12);
        let count = self.random.below(9) as usize;
        let from = self.random.choice(&[0, 0, 1, 4_090]);
        let mut tick = self.tick_to_read();
        for at in from..from + count {
            let value = self.value();
            self.listed(at as u64, tick, value);
            tick = match self.random.below(6) {
                0 => self.tick_to_read(),
                _ => tick.wrapping_add(1),
            };
        }
        if late {
            let other = self.random.choice(&[count, count, count + 1, count / 2]);
            self.late_many(from, count, other);
        } else {
            self.next_many(from, count);
        }
    }

    fn refused_reading(&mut self) {
        let value = self.value();
        let tick = self.far_tick();
        let late = self.session.state.kind == Kind::Late;
        let kind = if late && self.chance(2) {
            Kind::InOrder
        } else {
            Kind::Late
        };
        let word = self.reading_word(kind);
        self.read(word, tick, value);
    }

    fn far_tick(&mut self) -> u32 {
        let last = TICKS as u32 - 1;
        self.random.choice(&[last, last + 1, last + 1, u32::MAX])
    }

    fn about_lookup(&mut self) {
        let tick = self.about_tick();
        self.lookup(tick);
    }

    /// The range is seldom empty; the bar is near the largest reading of a slot in use, or any.
    fn about_over(&mut self) {
        let mut ends = [(); 2].map(|()| self.about_tick());
        if !self.chance(4) {
            ends.sort();
        }
        let bar = match self.slot_in_use() {
            Some(slot) if !self.chance(4) => {
                let largest = self.session.room[slot * SLOT + 3] as i32;
                largest.wrapping_add(self.random.choice(&[-1, 0, 0, 1]))
            }
            _ => self.value(),
        };
        self.over(ends[0], ends[1], bar);
    }

    fn about_tick(&mut self) -> u32 {
        match self.ticks() {
            Some((start, end)) if !self.chance(4) => {
                let about = [start.wrapping_sub(1), start, end.wrapping_sub(1), end];
                self.random.choice(&about)
            }
            _ if self.chance(2) => self.random.below(60) as u32,
            _ => self.far_tick(),
        }
    }

    fn slot_in_use(&mut self) -> Option<usize> {
        match self.used() {
            0 => None,
            used => Some(self.random.below(used as u64) as usize),
        }
    }

    /// Where a slot in use begins and ends, if there is one; the numbers may be changed ones.
    fn ticks(&mut self) -> Option<(u32, u32)> {
        let slot = self.slot_in_use()?;
        let [start, count] = [0, 1].map(|field| self.session.room[slot * SLOT + field]);
        Some((start as u32, start.wrapping_add(count) as u32))
    }

    /// Any call that asks whether the trace is sound.
    fn call(&mut self) {
        match self.random.below(9) {
            0 => self.about_lookup(),
            1 => self.any_row(),
            2 => self.any_save(),
            3 => self.worst(),
            4 => self.about_over(),
            5 => self.any_picture(),
            _ => self.reading(),
        }
    }

    /// A field of the state or how much of the room is lent; it comes back unless the call was accepted with a state.
    fn changed_field(&mut self) {
        let which = self.random.below(FIELDS.len() as u64 + 1) as usize;
        let Some(&name) = FIELDS.get(which) else {
            let lent = self.session.lent;
            let short = made::other_field(&mut self.random, lent as u64);
            self.room(short.min(NUMBERS as u64) as usize);
            self.call();
            self.room(lent);
            return;
        };
        let field = self.session.fields()[which];
        let changed = match name {
            Name::Kind => made::other_kind(&mut self.random, field),
            Name::Edition => made::other_edition(&mut self.random, field),
            _ => made::other_field(&mut self.random, field),
        };
        self.state(name, changed);
        let at_call = self.session.state;
        self.call();
        if self.session.state == at_call {
            self.state(name, field);
        }
    }

    /// In a slot in use or in the two after it; the number comes back unless the call was accepted with a state.
    fn changed_number(&mut self) {
        let numbers = ((self.used() + 2) * SLOT).min(NUMBERS);
        let index = self.random.below(numbers as u64) as usize;
        let number = self.session.room[index];
        let changed = made::other_number(&mut self.random, number);
        let before = self.session.state;
        self.set(index, changed);
        self.call();
        if self.session.state == before {
            self.set(index, number);
        }
    }

    fn any_row(&mut self) {
        let places = self.output(self.used(), 3);
        self.row(places);
    }

    fn any_save(&mut self) {
        let bytes = self.output(self.used() * RECORD_BYTES, 21);
        self.save(bytes);
    }

    /// With a caption, or with bytes that are none: a bad one among them, one too many, or whatever the file begins with.
    fn any_picture(&mut self) {
        let mut caption = self.any_caption();
        match self.random.below(6) {
            0 if !caption.is_empty() => {
                let at = self.random.below(caption.len() as u64) as usize;
                caption[at] = self
                    .random
                    .choice(&[0, 9, 10, 0x1F, 0x7F, 0x80, 0xA0, 0xFF]);
            }
            1 => caption.resize(picture::MOST_CAPTION + 1, b'-'),
            2 => {
                let bytes = self.output(600, 700);
                return self.picture(0, caption.len(), bytes);
            }
            _ => {}
        }
        self.file_from(CAPTIONS, &caption);
        let table = match self.session.is_unsound() {
            true => Vec::new(),
            false => self.session.buckets(),
        };
        let bytes = self.output(picture::text(&table, &caption).len(), 30);
        self.picture(CAPTIONS * RECORD_BYTES, caption.len(), bytes);
    }

    /// The length of an output: exact, longer or short; seldom more than there is.
    fn output(&mut self, exact: usize, longer: usize) -> u64 {
        if self.chance(300) {
            return u64::MAX;
        }
        if self.chance(9) {
            let bytes = 16 * self.random.below(20) + self.random.below(17);
            let byte = self.random.choice(&[0, 165, 255]);
            self.blank(bytes, byte);
        }
        let short = exact.saturating_sub(1);
        let cut = self.random.below(exact as u64 + 1) as usize;
        let lengths = [exact, exact, exact + 1, exact + longer, short, short, cut];
        self.random.choice(&lengths) as u64
    }

    fn any_bucket(&mut self) {
        let [one, other] = [self.value(), self.value()];
        let word = self.random.choice(&[Word::Level, Word::Error]);
        self.bucket(word, one.min(other), one.max(other));
    }

    /// Loads the trace's own file, damaged or not, or another one, by its own settings or others.
    fn any_load(&mut self) {
        let length = match self.random.below(6) {
            0 => self.random_file(),
            1 | 2 => self.other_file(),
            _ => {
                let length = self.used() * RECORD_BYTES;
                self.save(length as u64);
                self.give(Word::Take, &[(Name::Bytes, length as u64)]);
                self.damaged(length / RECORD_BYTES)
            }
        };
        self.file_length(length);
        if self.chance(4) {
            self.load_otherwise();
        } else {
            let state = self.session.state;
            self.load_by(state.kind, state.base, state.gaps);
        }
    }

    /// A recording of a few records into the room at hand, by settings that it is long enough for or by others.
    fn any_replay(&mut self) {
        let mut counter = self.random.number() as u16;
        let mut frames = Vec::new();
        for _ in 0..self.random.below(16) {
            let value = self.value();
            frames.push(Frame { counter, value });
            let step = match self.random.below(6) {
                0 => self.random.number() as u16,
                _ => self.random.between(-3, 4) as u16,
            };
            counter = counter.wrapping_add(step);
        }
        self.recording(&frames);
        let slots = (self.session.lent / SLOT) as u64;
        let base = self.random.below(slots.clamp(3, MOST_BASE + 2) - 2) + 1;
        let fitting = slots.saturating_sub(base + 1).clamp(1, MOST_GAPS);
        let gaps = self.random.choice(&[fitting, fitting, 1]);
        let (size, gaps) = match self.random.below(10) {
            0 => (self.size_beyond(), gaps),
            1 => (self.size_of(base), self.beyond(MOST_GAPS)),
            2 => (Size::Base(slots.clamp(1, MOST_BASE)), MOST_GAPS),
            _ => (self.size_of(base), gaps),
        };
        if self.chance(5) {
            let length = self.random.below(FRAME_BYTES as u64 * 9) as usize;
            self.file_length(length);
        }
        let kind = self.random.choice(&[0, 1, 7, 1 << 32, u64::MAX]);
        if self.chance(9) {
            self.in_no_edition(|script| {
                script.replay_as(kind, size, gaps);
            });
        } else {
            self.replay_as(kind, size, gaps);
        }
    }

    fn load_by(&mut self, kind: Kind, base: u64, gaps: u64) {
        let number = self.number_of(kind);
        let size = self.size_of(base);
        self.load_as(number, size, gaps);
    }

    /// By settings out of bounds, too small for the file or too large for the room, of the other kind, in an edition that there is not, or in a room
    /// that is short.
    fn load_otherwise(&mut self) {
        let state = self.session.state;
        let (kind, base, gaps) = (state.kind, state.base, state.gaps);
        match self.random.below(9) {
            0 => {
                let number = self.number_of(kind);
                let size = self.size_beyond();
                self.load_as(number, size, gaps);
            }
            1 => {
                let gaps = self.beyond(MOST_GAPS);
                self.load_by(kind, base, gaps);
            }
            2 => self.load_by(kind, base.saturating_sub(1), gaps),
            3 => self.load_by(kind, base, gaps.saturating_sub(1)),
            4 => self.load_by(kind, base.saturating_add(1), gaps),
            5 => self.load_by(Kind::InOrder, base, gaps),
            6 => self.load_by(Kind::Late, base.saturating_sub(2), 1),
            7 => self.in_no_edition(|script| script.load_by(kind, base, gaps)),
            _ => {
                let lent = self.session.lent;
                let short = self.random.choice(&[1, 4, 9]);
                self.room(lent.saturating_sub(short));
                self.load_by(kind, base, gaps);
                self.room(lent);
            }
        }
    }

    /// Random bytes; answers their number.
    fn random_file(&mut self) -> usize {
        let records = self.random.below(4) as usize;
        for at in 0..records {
            let [start, count] = [(); 2].map(|()| i64::from(self.random.number() as u32));
            let [least, largest] = [(); 2].map(|()| i64::from(self.random.number() as i32));
            self.record(at, [start, count, least, largest]);
        }
        let more = if self.chance(4) { 5 } else { 0 };
        records * RECORD_BYTES + more
    }

    /// The file of a table by chance that the settings allow, now and then with one fault; answers its length.
    fn other_file(&mut self) -> usize {
        let table = self.table();
        for (at, bucket) in table.iter().enumerate() {
            self.record(at, made::slot(bucket));
        }
        if self.chance(2) {
            return self.damaged(table.len());
        }
        table.len() * RECORD_BYTES
    }

    /// One field of a record: start, count, least or largest.
    fn field(&mut self, at: usize, field: usize, number: i64) {
        let mut record = self.record_there(at);
        record[field] = number;
        self.record(at, record);
    }

    fn copy(&mut self, from: usize, to: usize, count: usize) {
        let [from, to, count] = [from, to, count].map(|number| number as u64);
        let named = [(Name::From, from), (Name::To, to), (Name::Count, count)];
        self.give(Word::Copy, &named);
    }

    /// Does one thing to the file of so many records; answers its length then.
    fn damaged(&mut self, records: usize) -> usize {
        let length = records * RECORD_BYTES;
        if records == 0 {
            return self.random.below(20) as usize;
        }
        let record = self.random.below(records as u64) as usize;
        let [start, count, least, largest] = self.record_there(record);
        let ticks = TICKS as i64;
        match self.random.below(18) {
            0 => {
                let index = self.random.below(length as u64) as usize;
                let flipped = self.session.file[index] ^ 1 << self.random.below(8);
                self.byte(index, flipped);
            }
            1 => {
                let after = records - record - 1;
                self.copy(record + 1, record, after);
                return length - RECORD_BYTES;
            }
            2 => {
                let on = records - record;
                self.copy(record, record + 1, on);
                return length + RECORD_BYTES;
            }
            3 => {
                let other = self.random.below(records as u64) as usize;
                self.copy(record, SPARE_RECORD, 1);
                self.copy(other, record, 1);
                self.copy(SPARE_RECORD, other, 1);
            }
            4 => return length - self.random.between(1, RECORD_BYTES as i64 - 1) as usize,
            5 => self.field(record, 1, 0),
            6 => {
                let past = [ticks, ticks + 1 - count, ticks - 1, -1];
                let start = self.random.choice(&past);
                self.field(record, 0, start);
            }
            7 => {
                let left = ticks - start;
                let count = self.random.choice(&[left, left + 1, -1]);
                self.field(record, 1, count);
            }
            8 => self.field(record, 2, largest + 1),
            9 => self.field(record, 3, least - 1),
            10 => self.field(record, 0, start + 1),
            11 => self.field(record, 0, start - 1),
            12 | 13 => return self.lengthened(records, 1),
            14 | 15 => return self.lengthened(records, 0),
            _ => {}
        }
        length
    }

    /// Records after the last, with so many ticks missing before each, up to one run or one record too many; answers the length then.
    fn lengthened(&mut self, records: usize, missing: u64) -> usize {
        let state = self.session.state;
        let (base, runs) = (state.base.min(MOST_BASE), state.runs.min(MOST_GAPS));
        let most = rule::limit(state.kind, base, runs);
        let allowed = if missing == 0 { most } else { state.gaps };
        let there = if missing == 0 {
            records as u64
        } else {
            state.runs
        };
        let more = allowed.saturating_add(1).saturating_sub(there).min(16) as usize;
        let [start, count, ..] = self.record_there(records - 1);
        let mut end = (start + count) as u64;
        for record in records..records + more {
            let bucket = Bucket::of_reading(end + missing, 4);
            self.record(record, made::slot(&bucket));
            end += missing + 1;
        }
        (records + more) * RECORD_BYTES
    }

    /// Lengthens the last bucket up to the last ticks, which leaves the trace sound; then readings and lookups there.
    fn last_ticks(&mut self) {
        let state = self.session.state;
        let Some(last) = self.used().checked_sub(1) else {
            return;
        };
        let [start, count] = [0, 1].map(|field| self.session.room[last * SLOT + field]);
        let left = self.random.choice(&[0, 0, 1, 2]);
        let more = (TICKS as i64 - left).saturating_sub(start.saturating_add(count));
        if more < 0 {
            return;
        }
        self.set(last * SLOT + 1, count.wrapping_add(more));
        self.state(Name::Readings, state.readings.wrapping_add(more as u64));
        for tick in TICKS as u32 - 2..=TICKS as u32 {
            let value = self.value();
            let word = self.reading_word(state.kind);
            self.read(word, tick, value);
            self.lookup(tick);
        }
    }
}
