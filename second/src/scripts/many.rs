//! Many readings at one call: worked by hand, of every length, in stretches of about 2C + 48 or 510 and their multiples, over the last tick, one call
//! after the other among single ones, and late in ten orders, with a tick that is taken, too far or of one run too many at each place.

use super::late::ORDERS;
use crate::calls::{needed_numbers, Size, MOST_GAPS, RECORD_BYTES, SLOT};
use crate::command::{Name, Word};
use crate::feeds;
use crate::rule::{Kind, TICKS};
use crate::script::Script;
use crate::session::READINGS;
use crate::shapes::{self, Shape};

/// The headings of what must not be left out.
pub const OVER_THE_END: &str = "# many readings over the last tick";
pub const IN_TURN: &str = "# many readings, one call after the other";
pub const OTHER_KIND: &str = "# many readings of the other kind";
pub const ONE_REFUSED: &str = "# many late readings, one refused";

/// The heading of late readings in this order of ticks.
pub fn heading(order: u8) -> String {
    format!("# many late readings, order {order}")
}

const SIZES: [Size; 14] = [
    Size::Steps(1),
    Size::Steps(2),
    Size::Steps(15),
    Size::Steps(16),
    Size::Steps(17),
    Size::Steps(64),
    Size::Steps(256),
    Size::Base(1),
    Size::Base(3),
    Size::Base(30),
    Size::Base(31),
    Size::Base(33),
    Size::Base(34),
    Size::Base(511),
];

/// Lengths that are met by each size, and longer ones that take turns; every length below `IN_TURNS` takes turns too.
const LENGTHS: [usize; 10] = [1, 15, 16, 17, 31, 32, 33, 127, 128, 129];
const LONG: [usize; 12] = [
    255, 256, 509, 510, 511, 512, 700, 900, 1_021, 1_022, 1_023, 1_024,
];
const IN_TURNS: usize = 161;
/// Readings that stay until the last tick.
const LEFT: [usize; 13] = [0, 1, 2, 3, 5, 31, 32, 33, 48, 49, 128, 300, 544];

/// How the values of a list follow each other.
#[derive(Clone, Copy)]
enum Values {
    Shaped(Shape),
    /// Two in turn.
    Flips,
    /// The ends of the range and the numbers next to them.
    Ends,
    /// So few that most spreads are equal.
    Ties,
    /// Up and down in fifty readings each, and a little noise.
    Wave,
    /// One value for a while, then another.
    Held,
    /// Two values next to each other for about 32 readings or a multiple, then two others.
    Blocks,
}

const VALUES: [Values; 10] = [
    Values::Shaped(Shape::Constant),
    Values::Shaped(Shape::Ramp),
    Values::Shaped(Shape::Square),
    Values::Shaped(Shape::FullSwings),
    Values::Flips,
    Values::Ends,
    Values::Ties,
    Values::Wave,
    Values::Held,
    Values::Blocks,
];

/// Those that take their time have fewer calls.
fn is_large(size: Size) -> bool {
    size.base() > Some(128)
}

pub fn write(script: &mut Script) {
    script.many_by_hand(true);
    script.many_lengths();
    script.many_stretches();
    script.whole_lists();
    script.many_over_the_end();
    script.many_of_the_other_kind();
    script.many_in_turn();
    script.many_late_lengths();
    for order in ORDERS {
        script.heading(&heading(order));
        script.many_late(order);
    }
    script.many_late_refused();
}

impl Script {
    /// Makes the list begin with these readings, by changes of those that differ.
    pub(super) fn list(&mut self, readings: &[(u32, i32)]) {
        for (at, &(tick, value)) in readings.iter().enumerate() {
            if (self.session.ticks[at], self.session.values[at]) != (tick, value) {
                self.listed(at as u64, tick, value);
            }
        }
    }

    pub(super) fn listed(&mut self, at: u64, tick: u32, value: i32) {
        let value = (Name::Value, i64::from(value) as u64);
        let named = [(Name::At, at), (Name::Tick, u64::from(tick)), value];
        self.give(Word::Reading, &named);
    }

    /// Answers how many were accepted, where not all were.
    pub(super) fn next_many(&mut self, from: usize, values: usize) -> Option<usize> {
        self.many(Word::NextMany, from, 0, values)
    }

    /// Answers how many were accepted, where not all were.
    pub(super) fn late_many(&mut self, from: usize, ticks: usize, values: usize) -> Option<usize> {
        self.many(Word::LateMany, from, ticks, values)
    }

    fn many(&mut self, word: Word, from: usize, ticks: usize, values: usize) -> Option<usize> {
        let before = self.session.state.readings;
        let [from, ticks, values] = [from, ticks, values].map(|number| number as u64);
        let named = [
            (Name::From, from),
            (Name::Ticks, ticks),
            (Name::Values, values),
        ];
        let given: Vec<(Name, u64)> = match word {
            Word::NextMany => vec![named[0], named[2]],
            _ => named.to_vec(),
        };
        match self.give(word, &given) {
            true => None,
            false => Some((self.session.state.readings - before) as usize),
        }
    }

    /// Values of a sort, at ticks from 0 on.
    fn values(&mut self, sort: Values, count: usize) {
        let seed = self.random.number() as u32;
        let two = [(); 2].map(|()| self.random.between(-900, 900) as i32);
        let shape = match sort {
            Values::Shaped(shape) => shape,
            _ => Shape::Constant,
        };
        let (mut held, mut until) = (0, 0);
        let mut readings = Vec::new();
        for (turn, reading) in shapes::readings(shape, seed).take(count).enumerate() {
            let value = match sort {
                Values::Shaped(_) => reading.value,
                Values::Flips => two[turn % 2],
                Values::Ends => {
                    self.random
                        .choice(&[i32::MIN, i32::MAX, i32::MIN + 1, i32::MAX - 1, 0])
                }
                Values::Ties => self.random.between(-2, 2) as i32,
                Values::Wave => {
                    let slope = (turn as i32 % 100 - 50).abs();
                    40 * slope + self.random.between(-3, 3) as i32
                }
                Values::Held => {
                    if self.chance(25) {
                        held = self.random.between(-4, 4) as i32;
                    }
                    held
                }
                Values::Blocks => {
                    if turn >= until {
                        let lengths = [1, 2, 30, 31, 32, 33, 34, 63, 64, 65, 96];
                        until = turn + self.random.choice(&lengths);
                        held = self.random.between(-90, 90) as i32;
                    }
                    held + self.random.between(0, 1) as i32
                }
            };
            readings.push((turn as u32, value));
        }
        self.list(&readings);
    }

    /// From any index that leaves so many.
    fn next_from_anywhere(&mut self, values: usize, of: usize) {
        let from = self.random.below((of - values) as u64 + 1) as usize;
        self.next_many(from, values);
    }

    /// The traces worked by hand at one call each and at two; shown where that is asked for.
    pub(super) fn many_by_hand(&mut self, shown: bool) {
        self.heading("# many readings worked by hand");
        let traces: [(u64, &[i32]); 4] = [
            (1, &[1, 4, 2, 9]),
            (1, &[0, 1, 2]),
            (2, &[0, 5, 9, 14, 18]),
            (1, &[i32::MIN, i32::MAX, i32::MAX, i32::MIN, 0, -1]),
        ];
        for (steps, values) in traces {
            let readings: Vec<(u32, i32)> = (0..).zip(values.iter().copied()).collect();
            self.list(&readings);
            for first in [0, 1, values.len()] {
                self.open_fitting(Kind::InOrder, Size::Steps(steps), 0);
                self.next_many(0, first);
                self.next_many(first, values.len() - first);
                self.late_many(0, 1, 1);
                self.shown(shown);
            }
        }
        // The fifth is taken, and the seventh is a run too many.
        let late = [
            (0, 1),
            (1, 4),
            (6, 2),
            (5, 3),
            (1, 8),
            (4, 7),
            (9, 0),
            (2, 5),
        ];
        self.list(&late);
        self.open_fitting(Kind::Late, Size::Steps(1), 2);
        let mut from = 0;
        while let Some(accepted) = self.late_many(from, late.len() - from, late.len() - from) {
            from += accepted + 1;
            self.shown(shown);
        }
        self.late_many(0, 0, 3);
        self.late_many(0, 3, 0);
        self.next_many(0, 1);
        self.shown(shown);
        // Past the end of the list nothing is put and nothing lent.
        self.listed(READINGS as u64, 3, 3);
        self.listed(u64::MAX, 3, 3);
        for from in [READINGS - 1, READINGS, usize::MAX] {
            self.open_fitting(Kind::Late, Size::Steps(1), 2);
            self.late_many(from, 1, 1);
            self.late_many(from, usize::MAX, usize::MAX);
        }
        if shown {
            self.open_fitting(Kind::InOrder, Size::Steps(2), 2);
            self.next_many(0, usize::MAX);
            self.next_many(5, READINGS);
        }
    }

    fn shown(&mut self, shown: bool) {
        if shown {
            self.give(Word::Show, &[]);
        }
    }

    /// From an empty trace and on from one that was fed before.
    fn many_lengths(&mut self) {
        self.heading("# many readings in order, every length");
        let (mut turn, mut long) = (0, 0);
        for (sort, &values) in VALUES.iter().enumerate() {
            let of = 1_500;
            self.values(values, of);
            for size in SIZES {
                if is_large(size) && sort % 3 > 0 {
                    continue;
                }
                let mut lengths: Vec<usize> = LENGTHS.to_vec();
                for _ in 0..28 {
                    lengths.push(turn % IN_TURNS);
                    turn += 50;
                }
                for _ in 0..2 {
                    lengths.push(LONG[long % LONG.len()]);
                    long += 1;
                }
                lengths.push(self.random.between(130, 700) as usize);
                self.open_fitting(Kind::InOrder, size, 0);
                for length in lengths {
                    if self.chance(3) {
                        self.open_fitting(Kind::InOrder, size, 0);
                    }
                    self.next_from_anywhere(length, of);
                    match self.random.below(8) {
                        0 => self.next(7),
                        1 => self.worst(),
                        2 => self.sweep(0, 61, 3),
                        _ => {}
                    }
                }
            }
        }
    }

    /// As many readings as 2C + 48 and its multiples, of large C as 510 and its, up to two less and two more, into an empty trace and on from there; and as many as make 510 or
    /// 1,022 with the buckets that are there.
    fn many_stretches(&mut self) {
        self.heading("# many readings in order, stretches");
        let bases = [4, 30, 31, 32, 33, 34, 64, 128, 230, 231, 511, 512];
        for (turn, base) in bases.into_iter().enumerate() {
            let sorts = if is_large(Size::Base(base)) { 2 } else { 4 };
            let stretch = feeds::stretch(base) as usize;
            for sort in 0..sorts {
                let of = (3 * stretch + 40).max(1_100);
                self.values(VALUES[(3 * turn + 3 * sort) % VALUES.len()], of);
                for times in 1..=3 {
                    for beside in 0..5 {
                        let length = times * stretch + beside - 2;
                        self.open_fitting(Kind::InOrder, Size::Base(base), 0);
                        self.next_from_anywhere(length, of);
                        self.next_from_anywhere(length, of);
                    }
                }
                for places in [510_usize, 1_022] {
                    for beside in 0..5 {
                        self.open_fitting(Kind::InOrder, Size::Base(base), 0);
                        let first = self.random.below(2 * base) as usize;
                        self.next_from_anywhere(first, of);
                        let length = (places + beside - 2).saturating_sub(self.used());
                        self.next_from_anywhere(length, of);
                        self.next(1);
                    }
                }
                self.worst();
            }
        }
    }

    /// As many readings as there are at one call.
    fn whole_lists(&mut self) {
        self.heading("# many readings, the whole list");
        for values in [Values::Ends, Values::Wave, Values::Ties] {
            self.values(values, READINGS);
            for size in [
                Size::Base(1),
                Size::Steps(1),
                Size::Base(3),
                Size::Steps(2),
                Size::Steps(16),
                Size::Base(33),
                Size::Steps(64),
                Size::Steps(256),
            ] {
                self.open_fitting(Kind::InOrder, size, 0);
                self.next_many(0, READINGS);
                self.worst();
                self.open_fitting(Kind::Late, size, 1);
                self.late_many(0, READINGS, READINGS);
                self.worst();
            }
        }
    }

    /// Loaded from a file whose last bucket ends so many ticks before the last one; the readings fit, just do, or go over the end.
    fn many_over_the_end(&mut self) {
        self.heading(OVER_THE_END);
        for (turn, size) in SIZES.into_iter().enumerate() {
            let base = size.base().expect("a size in bounds") as usize;
            self.values(VALUES[(2 * turn) % VALUES.len()], 600);
            for left in LEFT {
                let buckets = self.random.choice(&[1, base / 2 + 1, base]);
                self.file_up_to(left, buckets);
                for more in [0, 1, 2, 40] {
                    self.room(needed_numbers(Kind::InOrder, base as u64, 0));
                    self.load_as(0, size, 0);
                    if left > 2 && self.chance(3) {
                        self.next_many(500, 2);
                        self.next_many(0, left + more - 2);
                    } else {
                        self.next_many(0, left + more);
                    }
                    self.next_many(3, 2);
                    self.next_many(3, 0);
                    self.sweep(TICKS as u32 - 2, 1, 3);
                }
            }
        }
    }

    /// The file of a trace in order of so many buckets that has so many ticks left: one long bucket, the others of one reading or two.
    fn file_up_to(&mut self, left: usize, buckets: usize) {
        let end = TICKS as i64 - left as i64;
        let mut table: Vec<[i64; SLOT]> = Vec::new();
        let long = self.random.below(buckets as u64) as usize;
        for at in 0..buckets {
            let value = self.random.between(-20, 20);
            let count = if at == long {
                0
            } else {
                self.random.between(1, 2)
            };
            table.push([0, count, value, value + count.max(1) - 1]);
        }
        table[long][1] = end - table.iter().map(|slot| slot[1]).sum::<i64>();
        let mut start = 0;
        for (at, slot) in table.iter_mut().enumerate() {
            slot[0] = start;
            start += slot[1];
            self.record(at, *slot);
        }
        self.file_length(buckets * RECORD_BYTES);
    }

    /// The kind as any number; where none is accepted it stays that number.
    fn many_of_the_other_kind(&mut self) {
        self.heading(OTHER_KIND);
        self.values(Values::Ties, 200);
        for (kind, other) in [(0, 1), (0, 7), (0, u64::MAX), (1, 0), (7, 1 << 32), (1, 9)] {
            for size in SIZES {
                let base = size.base().expect("a size in bounds");
                self.room(needed_numbers(Kind::Late, base, 3));
                self.open_as(kind, size, 3);
                self.next_many(0, 5);
                self.late_many(0, 5, 5);
                let gaps = self.session.state.gaps;
                self.state(Name::Kind, other);
                self.state(Name::Gaps, if other == 0 { 0 } else { 3 });
                for count in [0, 1, 2, 40] {
                    self.next_many(0, count);
                    // Ticks that are taken.
                    self.late_many(0, count, count);
                }
                self.late_many(3, 0, 9);
                self.state(Name::Kind, kind);
                self.state(Name::Gaps, gaps);
                self.next_many(0, 3);
                self.late_many(60, 3, 3);
            }
        }
    }

    /// Calls of many readings among single readings, lookups, searches, rows, saves and loads.
    fn many_in_turn(&mut self) {
        self.heading(IN_TURN);
        for turn in 0..90 {
            let kind = [Kind::InOrder, Kind::Late][turn % 2];
            let size = SIZES[turn / 2 % SIZES.len()];
            let gaps = self.random.choice(&[1, 2, 9]);
            self.values(VALUES[turn % VALUES.len()], 900);
            let base = size.base().expect("a size in bounds");
            let more = self.random.below(9) as usize;
            self.open(kind, size, gaps, needed_numbers(kind, base, gaps) + more);
            for _ in 0..30 {
                self.one_in_turn(kind, size, gaps);
            }
            // Unsound, which is not asked where there are none.
            self.state(Name::Readings, self.session.state.readings + 1);
            for count in [0, 3] {
                self.next_many(0, count);
                self.late_many(0, count, count);
            }
        }
    }

    fn one_in_turn(&mut self, kind: Kind, size: Size, gaps: u64) {
        let next = self.session.state.readings;
        let value = self.random.between(-30, 30) as i32;
        let about = self.random.below(next + 2) as u32;
        match self.random.below(12) {
            0..=4 => {
                let count = self.random.choice(&[0, 1, 2, 3, 9, 17, 33, 70, 140, 200]);
                match kind {
                    Kind::InOrder => self.next_from_anywhere(count, 900),
                    // From the first tick that has none, or before it.
                    Kind::Late => {
                        let first = (next as usize).min(900 - count);
                        let back = self.random.choice(&[0, 0, 0, 1]);
                        self.late_many(first.saturating_sub(back), count, count);
                    }
                }
            }
            5 | 6 => match kind {
                Kind::InOrder => self.next(value),
                Kind::Late => self.late(about, value),
            },
            7 => self.lookup(about),
            8 => self.over(0, about, value),
            9 => self.worst(),
            10 => self.row(self.used() as u64),
            _ => {
                let bytes = (RECORD_BYTES * self.used()) as u64;
                self.save(bytes);
                self.give(Word::Take, &[(Name::Bytes, bytes)]);
                self.load_as(kind as u64, size, gaps);
            }
        }
    }

    /// None refused: every tick is new, and as many runs are allowed as there can be.
    fn many_late_lengths(&mut self) {
        self.heading("# many late readings, every length");
        let (mut turn, mut long) = (0, 0);
        for order in [0, 1, 2, 3, 5] {
            for shape in [
                Shape::FewLevels,
                Shape::Square,
                Shape::FullSwings,
                Shape::Constant,
            ] {
                let of = 2_000;
                let seed = self.random.number() as u32;
                let readings: Vec<(u32, i32)> = shapes::readings(shape, seed)
                    .take(of)
                    .map(|reading| (reading.tick(order), reading.value))
                    .collect();
                self.list(&readings);
                for size in [
                    Size::Steps(2),
                    Size::Steps(16),
                    Size::Base(33),
                    Size::Base(511),
                ] {
                    if is_large(size) && order % 2 == 0 {
                        continue;
                    }
                    self.open_fitting(Kind::Late, size, MOST_GAPS);
                    let mut from = 0;
                    for step in 0..26 {
                        let length = if step % 13 == 12 {
                            long += 1;
                            LONG[long % LONG.len()]
                        } else {
                            turn += 50;
                            turn % IN_TURNS
                        };
                        if from + length > of {
                            self.open_fitting(Kind::Late, size, MOST_GAPS);
                            from = 0;
                        }
                        self.late_many(from, length, length);
                        from += length;
                    }
                }
            }
        }
    }

    /// After a refusal on from the reading behind it.
    fn many_late(&mut self, order: u8) {
        for (size, gaps) in [
            (Size::Steps(1), 1),
            (Size::Steps(1), 9),
            (Size::Base(3), 3),
            (Size::Steps(16), 8),
            (Size::Base(33), 30),
            (Size::Steps(64), 256),
            (Size::Base(511), 200),
        ] {
            let seed = self.random.number() as u32;
            let shape = Shape::of(self.random.below(6) as u8);
            let of = 700;
            let readings: Vec<(u32, i32)> = shapes::readings(shape, seed)
                .take(of)
                .map(|reading| (reading.tick(order), reading.value))
                .collect();
            self.list(&readings);
            self.open_fitting(Kind::Late, size, gaps);
            let mut from = 0;
            for _ in 0..40 {
                let most = of - from;
                let wanted = self.random.choice(&[3, 8, 31, 32, 33, 90, 129, 400]);
                let count = most.min(wanted);
                from += match self.late_many(from, count, count) {
                    None => count,
                    Some(accepted) => accepted + 1,
                };
                if self.chance(6) {
                    self.sweep(5, 83, 3);
                }
            }
            self.worst();
        }
    }

    /// Ticks in order but for one, which is above the last tick, taken or a run too many; as many values as ticks, fewer or more.
    fn many_late_refused(&mut self) {
        self.heading(ONE_REFUSED);
        for size in [
            Size::Steps(1),
            Size::Base(3),
            Size::Steps(16),
            Size::Base(33),
        ] {
            for count in [1, 2, 31, 32, 33, 129] {
                for tick in [TICKS as u32, u32::MAX, 0, 5_000] {
                    for at in [0, count / 2, count - 1] {
                        let mut readings: Vec<(u32, i32)> = (0..count as u32 + 3)
                            .map(|turn| {
                                (turn + 1, [3, i32::MIN, 8, i32::MAX, 5][turn as usize % 5])
                            })
                            .collect();
                        readings[at].0 = tick;
                        self.list(&readings);
                        for (ticks, values) in [(0, 0), (3, 0), (0, 3)] {
                            self.open_fitting(Kind::Late, size, 1);
                            self.late(0, 4);
                            self.late_many(0, count + ticks, count + values);
                            self.late_many(at + 1, count + 2 - at, 3);
                        }
                        self.open_fitting(Kind::Late, size, 1);
                        self.late(0, 4);
                        self.late_many(0, count, at);
                    }
                }
            }
        }
    }
}
