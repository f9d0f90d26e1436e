//! Editions: worked by hand; opens, loads, replays and states by the two and by numbers that are none, with whatever else could be refused; flat pins and
//! nearly flat ones, in order and late, in both editions one after the other; tables whose spreads are equal, whose counts are and are not; many
//! readings at one call; files saved in one edition and loaded in the other; and recordings replayed in both.

use super::late::ORDERS;
use crate::arrivals::{self, ARRIVALS};
use crate::calls::{needed_numbers, Size, MOST_GAPS, RECORD_BYTES, SLOT};
use crate::command::{Name, Word};
use crate::feeds;
use crate::logger::{Frame, FIRST_TICK, FRAME_BYTES};
use crate::made::NO_EDITIONS;
use crate::rule::{self, Bucket, Edition, Kind, EDITIONS};
use crate::script::Script;
use crate::session::READINGS;
use crate::shapes::{self, Shape};

/// The headings of what must not be left out.
pub const FLAT: &str = "# flat pins in both editions, in order";
pub const FLAT_LATE: &str = "# flat pins in both editions, late";
pub const LAID: &str = "# tables of equal spreads";
pub const MANY: &str = "# flat pins in both editions, many readings at one call";
pub const MOVED: &str = "# saved in one edition, loaded in the other";
pub const REPLAYED: &str = "# replayed in both editions";

/// So many rounds of opens, loads and replays by each number and each set of faults.
const ROUNDS: usize = 8;
/// So many rounds of states of each number and kind.
const OF_STATES: usize = 5;
/// So many opens, loads and replays that name no edition, for each that is at hand.
const UNNAMED: usize = 105;
/// So many tables of equal spreads, each in both editions.
const TABLES: usize = 1_200;
/// So many traces that are saved and loaded, and so many recordings.
const TRACES: usize = 408;
const RECORDINGS: usize = 150;

const KINDS: [Kind; 2] = [Kind::InOrder, Kind::Late];

/// Base limits of flat pins that are fed by many readings at one call. By those from 3 to 128 some of the lengths go past the limit and are still short enough
/// to be taken once more in the other edition.
const MANY_BASES: [u64; 26] = [
    1, 2, 3, 4, 5, 8, 12, 16, 20, 24, 30, 31, 32, 33, 34, 40, 48, 56, 63, 64, 100, 128, 230, 231,
    511, 512,
];

/// How the values of a pin that does little follow each other.
#[derive(Clone, Copy, PartialEq)]
enum Flat {
    Equal,
    TwoLevels,
    ThreeLevels,
    /// Long stretches of one level, and dips of two readings.
    Dips,
    /// Up by one at every reading: each two neighbours are as far apart.
    Ramp,
    /// Up by one after some readings.
    Stairs,
    /// Two levels in stretches of one length.
    Blocks,
    /// Two levels in turn.
    Flips,
}

const FLATS: [Flat; 8] = [
    Flat::Equal,
    Flat::TwoLevels,
    Flat::ThreeLevels,
    Flat::Dips,
    Flat::Ramp,
    Flat::Stairs,
    Flat::Blocks,
    Flat::Flips,
];

pub fn write(script: &mut Script) {
    script.editions_by_hand();
    script.heading("# opened, loaded and replayed by any number for the edition");
    script.any_number_named();
    script.faulty_files();
    script.heading("# no edition named");
    script.edition_at_hand();
    script.heading("# states of any edition");
    for turn in 0..OF_STATES {
        for kind in KINDS {
            script.other_editions(turn, kind);
        }
    }
    script.heading(FLAT);
    script.flat_in_order();
    script.heading(FLAT_LATE);
    script.flat_late();
    script.heading(LAID);
    for turn in 0..TABLES {
        script.equal_spreads(turn);
    }
    script.heading(MANY);
    script.flat_many();
    script.heading(MOVED);
    for turn in 0..TRACES {
        script.moved_over(turn);
    }
    script.heading(REPLAYED);
    for turn in 0..RECORDINGS {
        script.replayed_flat(turn);
    }
}

/// The word that feeds this kind, with the tally lent in every second turn: whichever it is, it feeds both editions.
fn in_turn(kind: Kind, turn: usize) -> Word {
    match (kind, turn % 2) {
        (Kind::InOrder, 0) => Word::Next,
        (Kind::InOrder, _) => Word::NextTold,
        (Kind::Late, 0) => Word::Late,
        (Kind::Late, _) => Word::LateTold,
    }
}

impl Script {
    /// Shown after each reading.
    fn editions_by_hand(&mut self) {
        self.heading("# editions worked by hand");
        let in_order: [(u64, &[i32]); 5] = [
            (2, &[5, 5, 5, 5]),
            (2, &[5; 16]),
            (3, &[1, 1, 1, 2, 2, 2, 1, 1, 1]),
            (4, &[0, 1, 2, 3, 4, 5, 6, 7, 8]),
            // A dip of two, and the flat stretches on both sides of it.
            (5, &[9, 9, 9, 9, 9, 9, 4, 4, 9, 9, 9, 9, 9, 9]),
        ];
        for (base, values) in in_order {
            self.in_each_edition(|script| {
                script.open_fitting(Kind::InOrder, Size::Base(base), 0);
                for &value in values {
                    script.next(value);
                    script.give(Word::Show, &[]);
                }
            });
        }
        // The last two close a gap each, which takes two merges.
        let late = [0, 1, 2, 6, 7, 8, 4, 5, 3];
        for (base, gaps) in [(1, 3), (2, 3), (3, 3)] {
            self.in_each_edition(|script| {
                script.open_fitting(Kind::Late, Size::Base(base), gaps);
                for tick in late {
                    script.late(tick, 5);
                    script.give(Word::Show, &[]);
                }
            });
        }
    }

    /// Both editions and the numbers that are none, by each word and with each set of faults: a size, a K and a length out of bounds, and a short room.
    fn any_number_named(&mut self) {
        let numbers = NO_EDITIONS.into_iter().chain([1, 2]);
        for word in [Word::Open, Word::Load, Word::Replay] {
            let length = match word {
                Word::Replay => self.three_frames(),
                _ => self.two_records(),
            };
            for edition in numbers.clone() {
                for round in 0..ROUNDS {
                    for faults in 0..16 {
                        self.named_with_faults(word, edition, round, faults, length);
                    }
                }
            }
        }
    }

    /// Two records that are good; answers their length.
    fn two_records(&mut self) -> usize {
        self.record(0, [0, 2, -1, 1]);
        self.record(1, [2, 1, 5, 5]);
        2 * RECORD_BYTES
    }

    fn three_frames(&mut self) -> usize {
        let frame = |counter| Frame { counter, value: 5 };
        self.recording(&[65_535, 0, 2].map(frame));
        3 * FRAME_BYTES
    }

    fn named_with_faults(
        &mut self,
        word: Word,
        edition: u64,
        round: usize,
        faults: u32,
        length: usize,
    ) {
        let bad = |fault: u32| faults >> fault & 1 == 1;
        let kind = KINDS[round % 2];
        let base = self.random.between(2, 7) as u64;
        let gaps = self.random.between(2, 4) as u64;
        let fitting = needed_numbers(Kind::Late, base, gaps);
        let size = match bad(0) {
            true => self.size_beyond(),
            false => Size::Base(base),
        };
        let gaps = match bad(1) {
            true => self.beyond(MOST_GAPS),
            false => gaps,
        };
        let lent = match bad(2) {
            true => self.random.below(SLOT as u64 * 3) as usize,
            false => fitting + round % 3,
        };
        let cut = if bad(3) { 1 + round % 5 } else { 0 };
        self.file_length(length - cut);
        // So that whoever clears it is seen.
        self.room(fitting);
        self.set(round, -9);
        self.room(lent);
        self.in_edition(edition, |script| {
            script.settings(word, kind as u64, size, gaps);
        });
        if faults.is_multiple_of(5) {
            self.flat_reading(word, 5);
        }
    }

    /// Of the kind of the trace at hand, behind what a replay of three frames and a load of two records leave.
    fn flat_reading(&mut self, word: Word, value: i32) {
        let tick = match word {
            Word::Replay => FIRST_TICK as u32 + 1,
            _ => 3,
        };
        self.read_in(self.session.state.kind, tick, value);
    }

    /// Files that are loaded late by K = 2 and refused by 7, 8, 9 and 10 in either edition.
    fn faulty_files(&mut self) {
        self.room(needed_numbers(Kind::Late, 2, 2));
        for turn in 0..ROUNDS {
            for fault in 0..4 {
                let [missing, records] = [[0, 2], [0, 2], [1, 3], [0, 4]][fault];
                for at in 0..records {
                    self.record(at as usize, [at * (1 + missing), 1, 4, 4]);
                }
                if fault == 1 {
                    self.record(1, [1, 0, 4, 4]);
                }
                let cut = if fault == 0 { 1 + turn } else { 0 };
                self.file_length(records as usize * RECORD_BYTES - cut);
                for edition in NO_EDITIONS.into_iter().chain([1, 2]) {
                    self.in_edition(edition, |script| {
                        script.load_as(1, Size::Base(2), 2);
                    });
                }
            }
        }
    }

    /// The state's own edition is meant where none is named, and it may be none.
    fn edition_at_hand(&mut self) {
        for word in [Word::Open, Word::Load, Word::Replay] {
            let length = match word {
                Word::Replay => self.three_frames(),
                _ => self.two_records(),
            };
            self.file_length(length);
            self.room(needed_numbers(Kind::Late, 2, 2));
            for turn in 0..UNNAMED {
                let none = NO_EDITIONS[turn % NO_EDITIONS.len()];
                for edition in [1, none, 2] {
                    self.state(Name::Edition, edition);
                    let unnamed = [
                        (Name::Kind, turn as u64 % 2),
                        (Name::Size, 1),
                        (Name::Gaps, 2),
                    ];
                    self.give(word, &unnamed);
                }
                if turn % 4 == 0 {
                    self.flat_reading(word, 5);
                }
            }
        }
    }

    /// A sound trace whose edition alone is another number, and which goes on when it is right again.
    fn other_editions(&mut self, turn: usize, kind: Kind) {
        let edition = EDITIONS[turn % 2];
        self.in_edition(edition.number(), |script| {
            script.open_fitting(kind, Size::Base(3), 2);
        });
        for tick in 0..turn as u32 * 3 {
            self.read_in(kind, tick, 5);
        }
        for none in NO_EDITIONS {
            self.state(Name::Edition, none);
            self.every_call();
        }
        for edition in [edition, edition.other(), edition] {
            self.state(Name::Edition, edition.number());
            for tick in [0, 1, 2] {
                self.read_in(kind, self.session.state.readings as u32 + tick % 2, 5);
            }
            self.worst();
        }
    }

    /// So many values of a sort.
    fn flat_values(&mut self, sort: Flat, count: usize) -> Vec<i32> {
        // A ramp has a long way up.
        let level = self
            .random
            .choice(&[0, -5, 12_050, i32::MIN, i32::MAX - 5_000]);
        let step = self.random.between(2, 9) as i32;
        let mut dip = 0;
        let mut values = Vec::new();
        for turn in 0..count as i32 {
            let more = match sort {
                Flat::Equal => 0,
                Flat::TwoLevels => self.random.below(2) as i32,
                Flat::ThreeLevels => self.random.below(3) as i32,
                Flat::Dips => {
                    if dip == 0 && self.chance(12) {
                        dip = 2;
                    }
                    let low = if dip > 0 { 0 } else { 300 };
                    dip = (dip - 1).max(0);
                    low
                }
                Flat::Ramp => turn,
                Flat::Stairs => turn / step,
                Flat::Blocks => turn / step % 2,
                Flat::Flips => turn % 2 * 40,
            };
            values.push(level + more);
        }
        values
    }

    fn flat_in_order(&mut self) {
        for (bases, rounds, sorts) in [
            (&[2, 3, 4, 5, 7, 8][..], 4, 8),
            (&[16, 33, 64], 1, 8),
            (&[1, 63, 128], 1, 2),
        ] {
            for &base in bases {
                for (turn, sort) in FLATS.into_iter().cycle().take(rounds * sorts).enumerate() {
                    let count = 2 * base as usize + 10 + turn % 5;
                    let values = self.flat_values(sort, count);
                    let round = turn / FLATS.len();
                    self.in_each_edition(|script| {
                        script.open_fitting(Kind::InOrder, Size::Base(base), 0);
                        for (at, &value) in values.iter().enumerate() {
                            script.read(in_turn(Kind::InOrder, round + at), 0, value);
                        }
                        script.row(base);
                    });
                }
            }
        }
    }

    /// In six orders of ticks, shuffled and delayed; few runs allowed or as many as are needed.
    fn flat_late(&mut self) {
        let mut turn = 0;
        for (bases, sorts) in [(&[1, 2, 3, 4, 5, 8][..], 5), (&[16, 33], 1), (&[64], 1)] {
            for &base in bases {
                for order in 0..6 + ARRIVALS.len() {
                    for _ in 0..sorts {
                        turn += 1;
                        let round = turn / FLATS.len();
                        let count = base as usize + base as usize / 2 + 24;
                        let values = self.flat_values(FLATS[turn % FLATS.len()], count);
                        let ticks = self.flat_ticks(order, count);
                        let gaps = self.random.choice(&[3, 12, MOST_GAPS]);
                        self.in_each_edition(|script| {
                            script.open_fitting(Kind::Late, Size::Base(base), gaps);
                            for (at, &tick) in ticks.iter().enumerate() {
                                let value = values[tick as usize % count];
                                script.read(in_turn(Kind::Late, round + at), tick, value);
                            }
                            script.row(base + gaps);
                        });
                    }
                }
            }
        }
    }

    /// As late readings have them, or as they arrive.
    fn flat_ticks(&mut self, order: usize, count: usize) -> Vec<u32> {
        match order.checked_sub(6) {
            Some(model) => ARRIVALS[model].order(count, &mut self.random),
            None => shapes::readings(Shape::Constant, 1)
                .take(count)
                .map(|reading| reading.tick(ORDERS[order]))
                .collect(),
        }
    }

    /// A full table of few levels, by chance of short buckets or of long ones, and a reading at its end or, late, in a gap between two runs.
    fn equal_spreads(&mut self, turn: usize) {
        let kind = KINDS[turn % 2];
        let closes = kind == Kind::Late && turn % 4 == 1;
        let base = self.random.between(2, 9) as u64;
        let runs = 1 + u64::from(closes);
        let buckets = match kind {
            Kind::InOrder => base,
            Kind::Late => base + runs,
        };
        let counts: &[u64] = match turn / 4 % 3 {
            0 => &[1, 1, 2, 3],
            1 => &[2, 3, 200, 255, 256, 257],
            _ => &[3, 65_535, 65_536, 65_537, 1 << 20],
        };
        let levels = self.random.choice(&[1, 1, 2, 3]);
        let gap = self.random.between(1, buckets as i64 - 1) as u64;
        let mut table: Vec<Bucket> = Vec::new();
        let mut end = 0;
        for at in 0..buckets {
            let start = end + u64::from(closes && at == gap);
            let count = self.random.choice(counts);
            let least = 7 + self.random.below(levels) as i64;
            let spread = match count {
                1 => 0,
                _ => self.random.below(levels) as i64,
            };
            table.push(Bucket {
                start,
                count,
                least,
                largest: least + spread,
            });
            end = start + count;
        }
        let tick = match closes {
            true => table[gap as usize].start - 1,
            false => rule::readings(&table),
        };
        let value = 7 + self.random.below(levels) as i32;
        self.in_each_edition(|script| {
            script.open_fitting(kind, Size::Base(base), 2);
            script.lay_sound(&table);
            script.read_in(kind, tick as u32, value);
        });
    }

    /// At one call from an empty trace on, then three more: by C = 2 every length, by others those about 16, about the times that C goes into 4,096 and
    /// about a stretch; and the whole list.
    fn flat_many(&mut self) {
        for length in 0..=160 {
            let sort = FLATS[length % FLATS.len()];
            self.flat_at_once(sort, 2, length);
        }
        let mut turn = 0;
        for base in MANY_BASES {
            let stretch = feeds::stretch(base) as usize;
            let times = feeds::quotient(base) as usize;
            let mut lengths = vec![15, 16, 17, times - 1, times, times + 1];
            lengths.extend([stretch - 1, stretch, stretch + 1, 2 * stretch]);
            // By C = 1 one more than that is more than the list has.
            for length in lengths.into_iter().filter(|&length| length <= READINGS) {
                turn += 1;
                self.flat_at_once(FLATS[turn % FLATS.len()], base, length);
            }
        }
        for sort in [Flat::Equal, Flat::TwoLevels, Flat::Stairs] {
            self.flat_list(sort, READINGS);
            for base in [2, 4, 33, 64] {
                self.in_each_edition(|script| {
                    script.open_fitting(Kind::InOrder, Size::Base(base), 0);
                    script.flat_many_of(Kind::InOrder, 0, READINGS);
                    script.row(base);
                });
            }
        }
    }

    /// So many readings of a sort at one call and three at another, in each kind and edition.
    fn flat_at_once(&mut self, sort: Flat, base: u64, length: usize) {
        self.flat_list(sort, READINGS.min(length + 3));
        for kind in KINDS {
            self.in_each_edition(|script| {
                script.open_fitting(kind, Size::Base(base), 1);
                script.flat_many_of(kind, 0, length);
                script.flat_many_of(kind, length, 3);
                script.worst();
            });
        }
    }

    /// Values of a sort, at ticks from 0 on.
    fn flat_list(&mut self, sort: Flat, count: usize) {
        let values = self.flat_values(sort, count);
        let readings: Vec<(u32, i32)> = (0..).zip(values).collect();
        self.list(&readings);
    }

    fn flat_many_of(&mut self, kind: Kind, from: usize, count: usize) {
        match kind {
            Kind::InOrder => self.next_many(from, count),
            Kind::Late => self.late_many(from, count, count),
        };
    }

    /// Readings go on from each load, the same ones; the file is the one that the first edition or the second has left.
    fn moved_over(&mut self, turn: usize) {
        let kind = KINDS[turn % 2];
        let edition = EDITIONS[turn / 2 % 2];
        let base = self.random.between(2, 9) as u64;
        let count = 2 * base as usize + 8;
        let values = self.flat_values(FLATS[turn / 4 % FLATS.len()], count + 4);
        let readings: Vec<(u32, i32)> = (0..).zip(values.iter().copied()).collect();
        self.list(&readings);
        self.in_edition(edition.number(), |script| {
            script.open_fitting(kind, Size::Base(base), 3);
        });
        self.flat_many_of(kind, 0, count);
        let bytes = RECORD_BYTES as u64 * self.session.state.used;
        self.save(bytes);
        self.give(Word::Take, &[(Name::Bytes, bytes)]);
        for edition in [edition.other(), edition] {
            self.loaded_and_gone_on(edition, kind, base, &readings[count..]);
        }
    }

    fn loaded_and_gone_on(
        &mut self,
        edition: Edition,
        kind: Kind,
        base: u64,
        readings: &[(u32, i32)],
    ) {
        self.in_edition(edition.number(), |script| {
            script.load_as(kind as u64, Size::Base(base), 3);
        });
        for &(tick, value) in readings {
            self.read_in(kind, tick, value);
        }
    }

    /// Records as they arrive, and late readings behind them.
    fn replayed_flat(&mut self, turn: usize) {
        let base = self.random.between(1, 9) as u64;
        let count = self.random.between(10, 60) as usize;
        let values = self.flat_values(FLATS[turn % FLATS.len()], count);
        let order = self.flat_ticks(6 + turn % ARRIVALS.len(), count);
        let gaps = match turn % 3 {
            0 => 3,
            _ => u64::from(arrivals::most_runs(&order)),
        };
        let first = self.random.choice(&[0, 7, 65_520]);
        let frames: Vec<Frame> = order
            .iter()
            .map(|&tick| Frame {
                counter: (tick as u16).wrapping_add(first),
                value: values[tick as usize],
            })
            .collect();
        self.recording(&frames);
        self.room(needed_numbers(Kind::Late, base, gaps));
        self.in_each_edition(|script| {
            script.replay_as(turn as u64 % 2, Size::Base(base), gaps);
            for tick in 0..3 {
                script.late(FIRST_TICK as u32 + count as u32 + tick, values[0]);
            }
            script.row(base + gaps);
        });
    }
}
