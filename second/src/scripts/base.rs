//! Opens and loads by B and by C: each bound from both sides, numbers that would do if some of their bits were lost, and any number for `by`; tables of
//! odd and even C that fill and merge; traces loaded under the other name, by one more and by one less; and states of any base limit.

use crate::calls::{needed_numbers, Size, MOST_BASE, MOST_STEPS, SLOT};
use crate::command::{Name, Word};
use crate::rule::{self, Bucket, Kind};
use crate::script::{nearest_base, Script};

/// So many opens and as many loads of each size and kind, of which every sixth is in a room that is short.
pub(super) const OF_EACH_SIZE: usize = 126;
/// So many of each size that would do if some of its bits were lost, and of each kind.
const OF_EACH_WIDE: usize = 50;
/// Traces that are saved and loaded.
const RELOADED: usize = 240;
/// Rounds of states of any base limit.
const OF_STATES: usize = 12;

/// What `by` is where C is named, turn by turn.
pub(super) const BY_BASE: [u64; 5] = [1, 2, 1 << 32, 1 << 63, u64::MAX];

pub(super) const STEPS: [u64; 4] = [0, 1, MOST_STEPS, MOST_STEPS + 1];
pub(super) const BASES: [u64; 8] = [0, 1, 2, 3, 63, MOST_BASE - 1, MOST_BASE, MOST_BASE + 1];
pub(super) const WIDE: [u64; 15] = [
    (1 << 31) + 1,
    (1 << 31) + 256,
    1 << 32,
    (1 << 32) + 1,
    (1 << 32) + 2,
    (1 << 32) + 255,
    (1 << 33) + (1 << 31) + 9,
    (1 << 40) + (1 << 31) + 200,
    1 << 63,
    (1 << 63) + 1,
    (1 << 63) + 2,
    (1 << 63) + 32,
    (1 << 63) + 256,
    u64::MAX - 1,
    u64::MAX,
];

const KINDS: [Kind; 2] = [Kind::InOrder, Kind::Late];

pub fn write(script: &mut Script) {
    script.heading("# opened and loaded by either name");
    script.record(0, [0, 2, -1, 1]);
    script.file_length(16);
    for kind in KINDS {
        for turn in 0..OF_EACH_SIZE {
            for size in STEPS {
                script.named_twice(turn, kind, size, 0);
            }
            for size in BASES {
                script.named_twice(turn, kind, size, BY_BASE[turn % 5]);
            }
        }
        for turn in 0..OF_EACH_WIDE {
            for size in WIDE {
                script.named_twice(0, kind, size, 0);
                script.named_twice(0, kind, size, BY_BASE[turn % 5]);
            }
        }
    }
    script.heading("# odd and even tables that fill and merge");
    for kind in KINDS {
        script.filled_tables(kind);
    }
    script.heading("# loaded under the other name, by one more and by one less");
    for turn in 0..RELOADED {
        script.loaded_otherwise(turn);
    }
    script.heading("# states of any base limit");
    for turn in 0..OF_STATES {
        for kind in KINDS {
            script.other_bases(turn as u64, kind);
        }
    }
}

impl Script {
    /// An open and a load by these numbers, each of which leaves a trace for a reading where it is accepted.
    fn named_twice(&mut self, turn: usize, kind: Kind, size: u64, by: u64) {
        let gaps = self.random.choice(&[1, 2, 3, 9]);
        let base = nearest_base(size, by);
        let fitting = needed_numbers(kind, base, gaps);
        // Late, K slots too few at the most.
        let slots = if kind == Kind::Late { gaps } else { 1 };
        for word in [Word::Open, Word::Load] {
            let numbers = match turn % 12 {
                5 => fitting - 1,
                11 => fitting - 1 - self.random.below(slots * SLOT as u64) as usize,
                _ => fitting + self.random.choice(&[0, 0, 1, 5]),
            };
            self.room(numbers);
            self.set(numbers - 1, -9);
            self.named(word, kind as u64, size, gaps, by);
        }
        self.one_reading(turn as u32 + 2, 3);
    }

    /// Of the kind of the trace at hand.
    fn one_reading(&mut self, tick: u32, value: i32) {
        self.read_in(self.session.state.kind, tick, value);
    }

    /// Past the limit by a third and more, of few levels and of the whole range.
    fn filled_tables(&mut self, kind: Kind) {
        for base in [1, 2, 3, 4, 5, 7, 8, 31, 63, 64] {
            for order in 0..6 {
                let gaps = [1, 4, 20][order as usize % 3];
                self.open_fitting(kind, Size::Base(base), gaps);
                let shape = [4, 5, 3][order as usize % 3];
                self.feed_any(kind, order, shape, base + base / 3 + 40);
                self.worst();
                self.row(base + 20);
            }
        }
        for base in [101, 255, 401, 511, 512] {
            self.open_fitting(kind, Size::Base(base), 20);
            self.feed_any(kind, 2, 5, base + 170);
            self.worst();
            self.sweep(0, 61, 10);
        }
    }

    fn feed_any(&mut self, kind: Kind, order: u8, shape: u8, count: u64) {
        match kind {
            Kind::InOrder => {
                let seed = self.random.number() as u32;
                self.feed(shape, count, seed);
            }
            Kind::Late => self.feed_late(order, shape, count),
        }
    }

    /// Full or not; a reading goes on from each load that is accepted, and the trace is loaded anew behind it.
    fn loaded_otherwise(&mut self, turn: usize) {
        let kind = KINDS[turn % 2];
        let base = self.random.between(1, 12) as u64 * (1 + turn as u64 / 2 % 2);
        let opened = match base % 2 {
            0 if turn % 3 > 0 => Size::Steps(base / 2),
            _ => Size::Base(base),
        };
        let gaps = self.random.between(1, 5) as u64;
        self.open(kind, opened, gaps, needed_numbers(kind, base + 1, gaps));
        for _ in 0..self
            .random
            .choice(&[base / 2 + 1, 2 * base + gaps, 2 * base + 8])
        {
            let tick = self.random.below(base + 12) as u32;
            let value = self.random.between(-99, 99) as i32;
            self.one_reading(tick, value);
        }
        let bytes = 16 * self.session.state.used;
        self.save(bytes);
        self.give(Word::Take, &[(Name::Bytes, bytes)]);
        let other = match opened {
            Size::Steps(steps) => Size::Base(2 * steps),
            Size::Base(base) => Size::Steps(base / 2),
        };
        // Each begins anew from the trace as it was opened and saved.
        for size in [other, Size::Base(base + 1), Size::Base(base - 1), opened] {
            self.set(0, -9);
            if self.load_as(kind as u64, size, gaps) {
                self.one_reading(base as u32 + 20, 5);
            }
            self.load_as(kind as u64, opened, gaps);
        }
    }

    /// The room is long enough for two slots more than any trace of its K, and has zeros behind the buckets.
    fn other_bases(&mut self, turn: u64, kind: Kind) {
        self.room(needed_numbers(kind, MOST_BASE + 2, 9));
        self.fill(0);
        self.open_as(kind as u64, Size::Base(MOST_BASE), 9);
        let late = kind as u64;
        // With nothing in order, or a run for each bucket late, only a base limit of 0 is too few.
        let buckets = if turn % 3 + late == 0 {
            0
        } else {
            3 + turn % 6
        };
        let bucket = |at: u64| Bucket::of_reading(at + late * (at / (1 + turn % 2)), at as i64);
        let table: Vec<Bucket> = (0..buckets).map(bucket).collect();
        self.lay_sound(&table);
        let exact = buckets - late * rule::runs(&table);
        let [huge, wraps] = [1 << 32, 1 << 63].map(|far| far + 512);
        for base in [
            0,
            1,
            exact.saturating_sub(1),
            exact,
            exact + 1,
            63,
            511,
            512,
            513,
            514,
            huge,
            wraps,
            u64::MAX,
        ] {
            let sound = self.session.fields();
            self.state(Name::Base, base);
            self.every_call();
            if self.session.state.readings != sound[5] {
                self.lay_sound(&table);
                self.clear_behind(buckets as usize);
            }
        }
    }

    /// Zeros where a reading that was taken has stood.
    fn clear_behind(&mut self, buckets: usize) {
        for at in buckets..buckets + 3 {
            self.slot(at, [0; SLOT]);
        }
    }
}
