//! Searches for the first bucket over a bar: every short range of two tables worked by hand, and ranges and bars about the buckets of tables by chance,
//! few, many and as many as there can be, up to the last tick.

use crate::calls::{Size, MOST_GAPS, MOST_STEPS, SLOT};
use crate::command::{Name, Word};
use crate::rule::{Bucket, Kind, TICKS};
use crate::script::{wide, Script};

/// Tables by chance of a few buckets, and of many.
const SMALL: usize = 300;
const LARGE: usize = 10;
/// Searches of one table.
const OF_SMALL: usize = 20;
const OF_LARGE: usize = 200;

const LAST: u32 = TICKS as u32 - 1;

pub fn write(script: &mut Script) {
    script.worked_searches();
    script.heading("# searches of tables by chance");
    for _ in 0..SMALL {
        script.search_small();
    }
    script.heading("# searches of many buckets");
    for _ in 0..LARGE {
        script.search_large();
    }
    script.heading("# searches of full tables");
    for (kind, most) in [(Kind::InOrder, 512), (Kind::Late, 768)] {
        script.search_full(kind, most);
    }
}

impl Script {
    /// Every range of the first ticks, with bars at, below and above what the buckets reach. Late, ticks 5 and 6 are missing.
    fn worked_searches(&mut self) {
        self.heading("# searches worked by hand");
        for (kind, third) in [(Kind::InOrder, 5), (Kind::Late, 7)] {
            self.open_fitting(kind, Size::Steps(2), 2);
            let table = [[0, 3, -1, 4], [3, 2, 8, 9], [third, 2, 2, 9]];
            self.lay(&table, 1 + kind as u64);
            for ends in 0..100 {
                for bar in [i32::MIN, 2, 4, 5, 9, 10, i32::MAX] {
                    self.over(ends / 10, ends % 10, bar);
                }
            }
            // Only the lowest 32 bits of a number are meant.
            let far = 1 << 32;
            let ends = [(Name::First, far + 1), (Name::Last, far + 3)];
            for bar in [(Name::Bar, far + 5), (Name::Bar, wide(-1) - far)] {
                self.give(Word::Over, &[ends[0], ends[1], bar]);
            }
        }
    }

    fn search_small(&mut self) {
        self.open_any_kind(4, 8);
        let mut table = self.table();
        if self.chance(2) {
            move_to_the_end(self.session.state.kind, &mut table);
        }
        if self.chance(3) {
            self.make_extreme(&mut table);
        }
        self.lay_sound(&table);
        for _ in 0..OF_SMALL {
            self.search_about(&table);
        }
        self.search_beside(&table);
        self.search_too_far(&table);
    }

    fn search_large(&mut self) {
        self.open_any_kind(MOST_STEPS, MOST_GAPS);
        let mut table = self.table();
        while table.len() < 300 {
            table = self.table();
        }
        self.lay_sound(&table);
        for _ in 0..OF_LARGE {
            self.search_about(&table);
        }
    }

    /// As many buckets as there can be, each largest reading above all before it, so that a bar picks any of them; late, three to a run. A bucket over
    /// every bar stands behind the needed slots.
    fn search_full(&mut self, kind: Kind, most: u64) {
        self.open_fitting(kind, Size::Steps(MOST_STEPS), MOST_GAPS);
        let reading = |at: u64| Bucket::of_reading(at + (kind as u64) * (at / 3), at as i64);
        let table: Vec<Bucket> = (0..most).map(reading).collect();
        self.lay_sound(&table);
        let needed = self.session.lent;
        self.room(needed + SLOT);
        let most = i64::from(i32::MAX);
        for (at, number) in [1_000_000, 1, most, most].into_iter().enumerate() {
            self.set(needed + at, number);
        }
        for bucket in &table {
            self.over(0, LAST, bucket.largest as i32);
            self.over(bucket.start as u32, bucket.start as u32, i32::MIN);
        }
        self.over(0, LAST, most as i32);
    }

    fn open_any_kind(&mut self, steps: u64, gaps: u64) {
        let kind = self.random.choice(&[Kind::InOrder, Kind::Late]);
        self.open_fitting(kind, Size::Steps(steps), gaps);
    }

    /// One bucket's readings are all the least there is, or all the largest.
    fn make_extreme(&mut self, table: &mut [Bucket]) {
        let value = i64::from(self.random.choice(&[i32::MIN, i32::MAX]));
        let index = self.random.below(table.len().max(1) as u64) as usize;
        if let Some(bucket) = table.get_mut(index) {
            bucket.least = value;
            bucket.largest = value;
        }
    }

    /// One range in eight is turned round.
    fn search_about(&mut self, table: &[Bucket]) {
        let [one, other] = [(); 2].map(|()| self.tick_beside(table));
        let bar = self.bar_beside(table);
        if self.chance(8) {
            self.over(one.max(other), one.min(other), bar);
        } else {
            self.over(one.min(other), one.max(other), bar);
        }
    }

    /// Each bucket's inner ticks and the empty range between its first two, what lies between it and the next one, the last tick of all, and all
    /// ticks above those held.
    fn search_beside(&mut self, table: &[Bucket]) {
        for bucket in table {
            let [start, end] = [bucket.start, bucket.end()].map(|tick| tick as u32);
            let bar = bucket.largest as i32;
            self.over(start + 1, start, bar);
            self.over(start + 1, end.saturating_sub(2), bar);
        }
        for pair in table.windows(2) {
            let bar = pair[0].largest.min(pair[1].largest) as i32;
            self.over(pair[0].end() as u32, pair[1].start as u32 - 1, bar);
        }
        if let Some(last) = table.last() {
            self.over(LAST, LAST, last.largest as i32);
            self.over(last.end() as u32, LAST, i32::MIN);
        }
    }

    /// Either end or both above the last tick, and an empty range; and the same of a state that counts a reading too many.
    fn search_too_far(&mut self, table: &[Bucket]) {
        let near = self.tick_beside(table);
        let far = self.random.choice(&[LAST + 1, LAST + 2, u32::MAX - 1]);
        let bar = self.bar_beside(table);
        let readings = self.session.state.readings;
        for counted in [readings, readings + 1] {
            self.state(Name::Readings, counted);
            for (first, last) in [
                (far, near),
                (near, far),
                (far, far + 1),
                (far + 1, far),
                (near, u32::MAX),
                (u32::MAX, near),
                (near + 1, near),
            ] {
                self.over(first, last, bar);
            }
        }
    }

    fn bucket_of(&mut self, table: &[Bucket]) -> Option<Bucket> {
        (!table.is_empty()).then(|| self.random.choice(table))
    }

    fn tick_beside(&mut self, table: &[Bucket]) -> u32 {
        let Some(bucket) = self.bucket_of(table) else {
            return self.random.below(20) as u32;
        };
        let [start, end] = [bucket.start, bucket.end()];
        let beside = [
            start.saturating_sub(1),
            start,
            start + 1,
            end - 1,
            end,
            end + 1,
        ];
        self.random.choice(&beside) as u32
    }

    fn bar_beside(&mut self, table: &[Bucket]) -> i32 {
        match self.bucket_of(table) {
            Some(bucket) if !self.chance(6) => {
                let bar = bucket.largest + self.random.choice(&[-1, 0, 0, 1]);
                bar.clamp(i64::from(i32::MIN), i64::from(i32::MAX)) as i32
            }
            _ => self.random.choice(&[i32::MIN, i32::MAX]),
        }
    }
}

/// In order the last bucket grows up to the last tick; late all move.
fn move_to_the_end(kind: Kind, table: &mut [Bucket]) {
    let Some(last) = table.last_mut() else {
        return;
    };
    let more = TICKS - last.end();
    match kind {
        Kind::InOrder => last.count += more,
        Kind::Late => table.iter_mut().for_each(|bucket| bucket.start += more),
    }
}
