//! States and rooms of which one clause of soundness is broken and no other, each asked of every call; and tables with one thing wrong.

use crate::calls::{self, Size, MOST_BASE, MOST_GAPS, SLOT};
use crate::clauses::{self, CLAUSES};
use crate::command::{Name, Word};
use crate::made::{self, NO_EDITIONS};
use crate::picture::MOST_BYTES;
use crate::rule::{self, Kind, TICKS};
use crate::script::Script;
use crate::session::NUMBERS;

/// So many states and rooms for each clause, and fifteen calls of each.
const OF_EACH: usize = 60;
const TRIES: usize = 10_000;

pub fn write(script: &mut Script) {
    for clause in 0..CLAUSES.len() {
        script.heading(&format!("# broken: {}", CLAUSES[clause]));
        for _ in 0..OF_EACH {
            script.broken_alone(clause);
        }
    }
    script.single_faults();
}

impl Script {
    /// Breaks a sound trace by chance until only this clause is broken, and makes every call of it.
    fn broken_alone(&mut self, clause: usize) {
        for _ in 0..TRIES {
            let tried = self.tried(clause);
            let broken = clauses::broken(tried.session.state, tried.session.lent_numbers());
            if clauses::alone(&broken) == Some(clause) {
                self.text.push_str(&tried.text);
                self.session = tried.session;
                self.calls += tried.calls;
                self.every_call();
                return;
            }
        }
        panic!("never alone: {}", CLAUSES[clause]);
    }

    /// Commands for one try, from a room of zeros on.
    fn tried(&mut self, clause: usize) -> Script {
        let mut script = Script::new(self.random.number());
        let kind = script.random.choice(&[Kind::InOrder, Kind::Late]);
        let base = script.random.choice(&[1, 2, 2, 3, 4, 6, 9, 10, 511, 512]);
        let gaps = match kind {
            Kind::InOrder => 0,
            Kind::Late => script.random.choice(&[1, 2, 3, 6, 256]),
        };
        script.room(NUMBERS);
        script.fill(0);
        script.open_fitting(kind, Size::Base(base), gaps);
        let most = script.random.choice(&[2, 4, base as usize + 3]).min(14);
        let table = made::table(&mut script.random, kind, most);
        script.lay_sound(&table);
        match clause {
            0 => script.other_base(),
            1 => script.other_gaps(),
            3 => {
                let numbers = script.session.lent;
                let short = script.random.choice(&[1, 2, 4, 5, 40]);
                script.room(numbers.saturating_sub(short));
            }
            5 | 6 if !table.is_empty() => {
                let index = script.random.below((table.len() * SLOT) as u64) as usize;
                let number = script.session.room[index];
                let changed = made::other_number(&mut script.random, number);
                script.set(index, changed);
                // Runs and readings are made true again.
                let slots: Vec<[i64; SLOT]> = script.session.room[..table.len() * SLOT]
                    .chunks(SLOT)
                    .map(|slot| slot.try_into().expect("four"))
                    .collect();
                let starts_run = |at: usize| {
                    at == 0 || slots[at][0] != slots[at - 1][0].wrapping_add(slots[at - 1][1])
                };
                let runs = (0..slots.len()).filter(|&at| starts_run(at)).count();
                let readings = slots
                    .iter()
                    .fold(0_i64, |sum, slot| sum.wrapping_add(slot[1]));
                script.state(Name::Runs, runs as u64);
                script.state(Name::Readings, readings as u64);
            }
            7 => {
                let changed = made::other_field(&mut script.random, rule::runs(&table));
                script.state(Name::Runs, changed);
            }
            8 => {
                let changed = made::other_field(&mut script.random, rule::readings(&table));
                script.state(Name::Readings, changed);
            }
            9 => {
                let from = table.len() * SLOT;
                let numbers = script.session.lent.saturating_sub(from).max(1);
                let index = from + script.random.below(numbers as u64) as usize;
                let number = script.random.choice(&[1, -1, 1 << 32, i64::MIN, i64::MAX]);
                script.set(index, number);
            }
            10 => {
                let edition = script.random.choice(&NO_EDITIONS);
                script.state(Name::Edition, edition);
            }
            _ => {}
        }
        script
    }

    fn other_base(&mut self) {
        let base = self.random.choice(&[0, 513, 513, 514, 600, 1_800]);
        self.state(Name::Base, base);
        self.room(NUMBERS);
    }

    fn other_gaps(&mut self) {
        let wide = self.random.number();
        let gaps = match self.session.state.kind {
            Kind::InOrder => self.random.choice(&[1, 256, 257, 1 << 32, wide, u64::MAX]),
            Kind::Late => self.random.choice(&[0, 257, 258, 1_000]),
        };
        self.state(Name::Gaps, gaps);
        self.room(NUMBERS);
    }

    pub(super) fn every_call(&mut self) {
        let used = self.session.state.used;
        self.next(1);
        self.late(40, 1);
        self.read(Word::NextTold, 0, 1);
        self.read(Word::LateTold, 40, 1);
        // Where there are no readings nothing is asked.
        for count in [2, 0] {
            self.next_many(0, count);
            self.late_many(0, count, count);
        }
        self.lookup(0);
        // The first bucket would be a hit, if it were answered before all is looked at.
        self.over(0, TICKS as u32 - 1, i32::MIN);
        self.over(1, 0, i32::MIN);
        self.worst();
        self.row(used);
        self.save(16 * used);
        self.picture(0, 0, MOST_BYTES as u64);
    }

    /// Tables with one thing wrong and every other condition met, and some that are sound.
    fn single_faults(&mut self) {
        self.heading("# one thing wrong");
        let [least, largest] = [i64::from(i32::MIN), i64::from(i32::MAX)];
        let in_order: [(u64, &[[i64; SLOT]]); 10] = [
            (1, &[[0, 1, 4, 4], [1, 2, 3, 5]]),
            // No ticks.
            (1, &[[0, 1, 4, 4], [1, 0, 5, 5], [1, 1, 6, 6]]),
            // One tick, two readings.
            (1, &[[0, 1, 4, 5]]),
            // Least above largest.
            (1, &[[0, 2, 5, 4]]),
            // A tick held twice, and one missing.
            (2, &[[0, 2, 4, 4], [1, 1, 4, 4]]),
            (2, &[[0, 1, 4, 4], [2, 1, 4, 4]]),
            // The first tick missing.
            (1, &[[1, 1, 4, 4]]),
            // Numbers whose lowest 32 bits would do.
            (1, &[[0, 1, least - 1, largest]]),
            (1, &[[0, 1, least, largest + 1]]),
            // A bucket more than the limit.
            (
                1,
                &[
                    [0, 1, 4, 4],
                    [1, 1, 4, 4],
                    [2, 1, 4, 4],
                    [3, 1, 4, 4],
                    [4, 1, 4, 4],
                ],
            ),
        ];
        for (runs, table) in in_order {
            self.open_fitting(Kind::InOrder, Size::Steps(2), 0);
            self.lay(table, runs);
            self.next(4);
        }
        let late: [(u64, &[[i64; SLOT]]); 6] = [
            (2, &[[1, 1, 4, 4], [3, 2, 3, 5]]),
            (2, &[[0, 2, 4, 4], [1, 1, 4, 4]]),
            // More runs than K.
            (3, &[[0, 1, 4, 4], [2, 1, 4, 4], [4, 1, 4, 4]]),
            // As many buckets as the limit, and one more.
            (1, &[[5, 1, 4, 4], [6, 1, 4, 4], [7, 1, 4, 4]]),
            (1, &[[5, 1, 4, 4], [6, 1, 4, 4], [7, 1, 4, 4], [8, 1, 4, 4]]),
            (2, &[[5, 1, 4, 4], [6, 1, 4, 4], [7, 1, 4, 4], [9, 1, 4, 4]]),
        ];
        for (runs, table) in late {
            self.open_fitting(Kind::Late, Size::Steps(1), 2);
            self.lay(table, runs);
            self.next(4);
            self.lookup(5);
            self.late(2, 4);
        }
        // Every field moved by 2^32, which its lowest 32 bits do not show.
        for field in 0..2 * SLOT {
            for far in [1 << 32, -1 << 32] {
                self.open_fitting(Kind::InOrder, Size::Steps(2), 0);
                let table = [[0, 3, -1, 1], [3, 2, 7, 8]];
                self.lay(&table, 1);
                self.set(field, table[field / SLOT][field % SLOT] + far);
                self.every_call();
            }
        }
        // C and K above their bounds, in room enough.
        for kind in [Kind::InOrder, Kind::Late] {
            self.open(kind, Size::Base(MOST_BASE), MOST_GAPS, NUMBERS);
            let fitting = calls::needed_numbers(kind, MOST_BASE, MOST_GAPS);
            for at in fitting..fitting + 2 * SLOT {
                self.set(at, 0);
            }
            for (name, most) in [(Name::Base, MOST_BASE), (Name::Gaps, MOST_GAPS)] {
                self.state(name, most + 1);
                self.every_call();
                self.state(name, most);
            }
        }
    }
}
