//! The short script that is stored, of some seven hundred commands: each word that the proved program crates/calls obeys, and no other.

use crate::calls::Size::{self, Base, Steps};
use crate::command::{Name, Word};
use crate::made;
use crate::random::Random;
use crate::rule::{self, Bucket, Kind, TICKS};
use crate::script::Script;

pub fn write(script: &mut Script) {
    script.random = Random::new(11);
    script.in_edition(1, |script| {
        script.worked(false);
        script.worked_late(false);
    });
    script.heading("# settings");
    for (kind, size, gaps, by) in [
        (0, 0, 0, 0),
        (0, 257, 0, 0),
        (0, 1, u64::MAX, 0),
        (1, 1, 0, 0),
        (1, 1, 257, 0),
        (u64::MAX, 2, 3, 0),
        (0, 1 << 32, 0, 0),
        (1, 1, (1 << 32) + 1, 0),
        (0, (1 << 63) + 1, 0, 0),
        (0, 0, 0, 1),
        (0, 513, 0, 1),
        (1, (1 << 32) + 1, 3, 1),
        (0, 3, 0, 2),
        (1, 5, 3, u64::MAX),
    ] {
        script.room(12);
        script.named(Word::Open, kind, size, gaps, by);
        script.room(40);
        script.named(Word::Open, kind, size, gaps, by);
    }
    script.heading("# editions");
    script.short_editions();
    script.heading("# odd tables");
    script.short_odd();
    script.many_by_hand(false);
    script.heading("# rows, saves and loads");
    script.short_outputs();
    script.heading("# unsound states and rooms");
    script.short_changes();
}

impl Script {
    /// Opened and loaded by numbers that are no edition, before anything else is looked at and after; a flat trace that is loaded in the other edition
    /// and goes on; and the edition at hand where none is named.
    fn short_editions(&mut self) {
        for kind in [Kind::InOrder, Kind::Late] {
            self.in_edition(2, |script| script.open(kind, Base(2), 1, 20));
            for tick in 0..5 {
                self.read_in(kind, tick, 5);
            }
            let bytes = 16 * self.session.state.used;
            self.save(bytes);
            self.give(Word::Take, &[(Name::Bytes, bytes)]);
            for edition in [0, 3, 258, (1 << 32) + 1, 1 << 63, u64::MAX] {
                self.in_edition(edition, |script| {
                    script.load_as(kind as u64, Base(2), 1);
                    script.open_as(kind as u64, Base(2), 1);
                    script.open_as(kind as u64, Base(0), 0);
                });
            }
            for edition in [1, 2] {
                self.in_edition(edition, |script| {
                    script.load_as(kind as u64, Base(2), 1);
                });
                for tick in 5..8 {
                    self.read_in(kind, tick, 5);
                }
            }
            let unnamed = [(Name::Kind, kind as u64), (Name::Size, 1), (Name::Gaps, 1)];
            self.give(Word::Open, &unnamed);
            self.state(Name::Edition, 3);
            self.give(Word::Open, &unnamed);
            self.read_in(kind, 0, 5);
        }
    }

    /// Filled, merged, saved, and loaded by the same C, one less and one more.
    fn short_odd(&mut self) {
        for kind in [Kind::InOrder, Kind::Late] {
            self.open(kind, Base(3), 2, 28);
            for (tick, value) in [(0, 7), (1, 0), (2, -7), (3, 0), (4, 3), (5, 9)] {
                self.read_in(kind, tick, value);
            }
            let used = self.session.state.used;
            self.save(16 * used);
            self.give(Word::Take, &[(Name::Bytes, 16 * used)]);
            for (size, by) in [(3, 1), (2, 1), (1, 0), (2, 0), (4, 2)] {
                self.named(Word::Load, kind as u64, size, 2, by);
            }
            self.worst();
        }
        // In a room that is a number short, and in one that is exactly as long as is needed.
        for numbers in [31, 32] {
            self.open(Kind::InOrder, Base(7), 0, numbers);
        }
        for value in 0..12 {
            self.next(value * value);
        }
        self.worst();
    }

    fn short_outputs(&mut self) {
        self.open(Kind::Late, Steps(1), 2, 30);
        for (tick, value) in [(3, -2), (4, i32::MIN), (5, i32::MAX), (9, 7)] {
            self.late(tick, value);
            let used = self.session.state.used;
            for length in [used - 1, used, used + 1] {
                self.save(16 * length);
            }
            self.worst();
            self.save(16 * used - 1);
            self.give(Word::Take, &[(Name::Bytes, 16 * used)]);
            self.set(0, -3);
            let settings: [(u64, Size, u64); 5] = [
                (1, Steps(1), 2),
                (1, Steps(1), 1),
                (0, Base(4), 0),
                (1, Steps(2), 2),
                (1, Base(18), 9),
            ];
            for (kind, size, gaps) in settings {
                self.load_as(kind, size, gaps);
            }
            self.file_length(16 * used as usize - 1);
            self.load_as(1, Base(2), 2);
            self.file_length(16 * used as usize);
            self.load_as(1, Base(2), 2);
        }
        for (at, byte) in [(4, 0), (3, 1), (15, 128), (24, 9)] {
            let there = self.session.file[at];
            self.byte(at, byte);
            self.load_as(1, Steps(1), 2);
            self.byte(at, there);
        }
    }

    fn short_changes(&mut self) {
        for kind in [Kind::InOrder, Kind::Late] {
            self.open_fitting(kind, Steps(2), 3);
            let table = made::table(&mut self.random, kind, 4);
            self.lay_by_numbers(&table);
            self.lookup(0);
            for name in [
                Name::Base,
                Name::Gaps,
                Name::Used,
                Name::Runs,
                Name::Readings,
                Name::Edition,
            ] {
                let fields = self.session.fields();
                // One more would be the other edition.
                let more = if name == Name::Edition { 2 } else { 1 };
                self.state(name, fields[name as usize] + more);
                self.short_calls();
                self.state(name, fields[name as usize]);
            }
            for at in 0..(self.used() + 1) * 4 {
                let there = self.session.room[at];
                self.set(at, there + (1 << 32));
                self.short_calls();
                self.set(at, there);
            }
            self.lookup(TICKS as u32);
            self.late(TICKS as u32, 1);
        }
    }

    fn lay_by_numbers(&mut self, table: &[Bucket]) {
        let numbers = table.iter().flat_map(made::slot);
        for (at, number) in numbers.enumerate() {
            self.set(at, number);
        }
        self.state(Name::Used, table.len() as u64);
        self.state(Name::Runs, rule::runs(table));
        self.state(Name::Readings, rule::readings(table));
    }

    /// Some readings and none.
    fn short_many(&mut self) {
        for count in [2, 0] {
            self.next_many(0, count);
            self.late_many(0, count, count);
        }
    }

    fn short_calls(&mut self) {
        match self.random.below(6) {
            0 => self.next(2),
            1 => self.late(30, 2),
            2 => self.lookup(1),
            3 => self.worst(),
            4 => self.short_many(),
            _ => self.save(64),
        }
    }
}
