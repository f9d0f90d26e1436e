//! Files, rooms, rows and outputs as long as the largest trace needs, and longer: records past the 768 that a trace can save, with a fault at a place
//! behind them.

use crate::calls::{Size::Steps, RECORD_BYTES, SLOT};
use crate::command::{Name, Word};
use crate::rule::Kind;
use crate::script::Script;
use crate::session::{NUMBERS, PLACES};

pub fn write(script: &mut Script) {
    script.largest_traces();
    script.long_files(Kind::InOrder);
    script.long_files(Kind::Late);
}

impl Script {
    /// As many buckets as there can be, in rooms that just fit and longer ones, into outputs about as long as they must be.
    fn largest_traces(&mut self) {
        self.heading("# the largest traces");
        for (kind, numbers) in [
            (Kind::InOrder, 2_052),
            (Kind::Late, 3_076),
            (Kind::Late, 5_000),
            (Kind::Late, NUMBERS),
        ] {
            self.room(numbers);
            self.fill(77);
            self.open_as(kind as u64, Steps(256), 256);
            let apart = match kind {
                Kind::InOrder => 1,
                Kind::Late => 2,
            };
            let buckets = if kind == Kind::InOrder { 512 } else { 768 };
            // The first 256 are a run each where ticks may be missing, the others of the last run.
            let start = |at: i64| at.min(255) * apart + (at - 255).max(0);
            let table: Vec<[i64; SLOT]> = (0..buckets)
                .map(|at| {
                    let value = at * 2_654_435_761 % 1_000;
                    [start(at), 1, value, value]
                })
                .collect();
            let runs = if kind == Kind::InOrder { 1 } else { 256 };
            self.lay(&table, runs);
            let buckets = buckets as u64;
            self.blank(16 * (buckets + 2), 90);
            for places in [0, buckets - 1, buckets, buckets + 1, u64::MAX] {
                self.row(places);
                self.save(places.saturating_mul(16));
                self.save(places.saturating_mul(16).saturating_sub(1));
            }
            self.give(Word::Take, &[(Name::Bytes, 16 * buckets)]);
            for turn in 0..20 {
                self.worst();
                self.lookup(turn * 41);
                match kind {
                    Kind::InOrder => self.next(turn as i32),
                    Kind::Late => self.late(turn * 50 + 1, turn as i32),
                }
            }
            self.load_as(kind as u64, Steps(256), 256);
            self.load_as(kind as u64, Steps(255), 256);
            self.load_as(kind as u64, Steps(256), 255);
        }
    }

    /// One tick a record, one fault or none.
    fn long_files(&mut self, kind: Kind) {
        self.heading("# files longer than any trace saves");
        self.room(3_076);
        self.fill(-5);
        for at in 0..PLACES as i64 {
            self.record(at as usize, [at, 1, 3, 3]);
        }
        for records in [769, 1_024, 1_025, 1_026, 2_000, PLACES] {
            self.file_length(records * RECORD_BYTES);
            self.load_as(kind as u64, Steps(256), 256);
            self.file_length(records * RECORD_BYTES - 1);
            self.load_as(kind as u64, Steps(256), 256);
        }
        for turn in 0..160 {
            let place = match turn {
                0..8 => [767, 768, 1_022, 1_023, 1_024, 1_025, 4_094, 4_095][turn],
                _ => self.random.between(1, PLACES as i64 - 1) as usize,
            };
            let whole = place as i64;
            let fault = match turn % 4 {
                0 => [whole, 0, 3, 3],
                1 => [whole, 1, 4, 3],
                2 => [whole, 1, 3, 4],
                _ => [whole - 1, 1, 3, 3],
            };
            self.record(place, fault);
            for records in [place, place + 1, PLACES] {
                self.file_length(records * RECORD_BYTES);
                self.load_as(kind as u64, Steps(256), 256);
            }
            self.record(place, [whole, 1, 3, 3]);
        }
        // Every second tick missing: more runs than any K.
        for records in [256, 257, 1_100, PLACES] {
            for at in 0..records as i64 {
                self.record(at as usize, [2 * at, 1, 3, 3]);
            }
            self.file_length(records * RECORD_BYTES);
            self.load_as(kind as u64, Steps(256), 256);
        }
    }
}
