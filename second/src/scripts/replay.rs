//! Replays of the logger's recordings: worked by hand, of each short length, in the orders of arrival, with differences at both bounds and refused
//! records between accepted ones; sizes and rooms at each bound, the largest tables, refused replays into a room that holds a trace, what goes on
//! after a replay, and a long recording.

use super::base::{BASES, BY_BASE, OF_EACH_SIZE, STEPS, WIDE};
use super::files::OLD_NUMBERS;
use crate::arrivals::{self, Arrivals, ARRIVALS, BURSTY};
use crate::calls::{needed_numbers, Size, Trace, MOST_BASE, MOST_GAPS, RECORD_BYTES, SLOT};
use crate::command::{Name, Word};
use crate::logger::{Frame, FIRST_TICK, FRAME_BYTES};
use crate::rule::Kind;
use crate::script::{nearest_base, wide, Script};
use crate::session::{BYTES, FILE_BYTES, FILE_FRAMES, NUMBERS};
use crate::shapes;

/// So many recordings of each short length.
const OF_EACH_LENGTH: usize = 25;
/// So many of each size that would do if some of its bits were lost.
const OF_EACH_WIDE: usize = 100;
/// Recordings made step by step, of each sort.
const WALKS: usize = 160;
/// Recordings that lead far up.
const FAR_UP: usize = 105;
/// Traces that refused replays leave as they are, each with every set of faults.
const HELD: usize = 40;
/// Replays that are gone on from.
const GONE_ON: usize = 60;
const LONG: usize = 100_000;

/// What a replay has for the kind, which it does not look at.
const KINDS: [u64; 5] = [0, 1, 2, 1 << 32, u64::MAX];
const BAD_GAPS: [u64; 7] = [
    0,
    MOST_GAPS + 1,
    65_536,
    1 << 32,
    (1 << 32) + 1,
    (1 << 63) + 2,
    u64::MAX,
];

/// The differences at the bounds and next to them.
const BOUNDS: [i64; 4] = [-32_768, -32_767, 32_766, 32_767];

pub fn write(script: &mut Script) {
    script.replays_by_hand();
    script.short_recordings();
    for arrivals in ARRIVALS {
        script.heading(&heading(&arrivals));
        script.replayed_arrivals(&arrivals);
    }
    script.walked_recordings();
    script.far_recordings();
    script.replayed_sizes();
    script.replayed_large();
    script.replays_over_a_trace();
    script.replays_gone_on();
    script.long_recording();
}

/// The headings of what must not be left out.
pub const FAR: &str = "# recordings far up";
pub const LARGEST: &str = "# replayed, the largest tables";
pub const OVER_A_TRACE: &str = "# refused replays over a trace";
pub const GONE_ON_AFTER: &str = "# gone on after a replay";

/// The heading of the replays in this order of arrival.
pub fn heading(arrivals: &Arrivals) -> String {
    super::arrivals::heading(arrivals).replace("# ", "# replayed ")
}

/// The record of a tick, where that of tick 32,768 has the counter `first`.
fn frame(first: u16, tick: i64, value: i32) -> Frame {
    let counter = (i64::from(first) + tick - FIRST_TICK).rem_euclid(65_536);
    Frame {
        counter: counter as u16,
        value,
    }
}

/// A recording that grows by what became of the records before.
struct Walk {
    trace: Trace,
    first: u16,
    newest: i64,
    ticks: Vec<i64>,
    frames: Vec<Frame>,
}

impl Walk {
    /// With its first record.
    fn new(size: Size, gaps: u64, first: u16, value: i32) -> Walk {
        // What is accepted is the same in every edition.
        let trace = Trace::open(1, Kind::Late, size, gaps).expect("settings in bounds");
        let mut walk = Walk {
            trace,
            first,
            newest: FIRST_TICK,
            ticks: Vec::new(),
            frames: Vec::new(),
        };
        walk.step(0, value);
        walk
    }

    /// A record so far from the newest.
    fn step(&mut self, difference: i64, value: i32) {
        let tick = self.newest + difference;
        self.frames.push(frame(self.first, tick, value));
        if self.trace.late(tick as u32, value).is_ok() {
            self.ticks.push(tick);
            self.newest = self.newest.max(tick);
        }
    }
}

impl Script {
    /// In a room of no number too many or of some more, which holds other numbers before.
    fn replay_anew(&mut self, size: Size, gaps: u64) -> bool {
        let base = size.base().expect("a size in bounds");
        let fitting = needed_numbers(Kind::Late, base, gaps);
        let more = self.random.choice(&[0, 0, 0, 1, 5, 40]);
        let longest = self.chance(40);
        self.room(if longest { NUMBERS } else { fitting + more });
        let old = self.random.choice(&OLD_NUMBERS);
        self.fill(old);
        let kind = self.random.choice(&KINDS);
        self.replay_as(kind, size, gaps)
    }

    /// By either name, small.
    fn small_size(&mut self) -> Size {
        match self.random.below(2) {
            0 => Size::Steps(self.random.between(1, 4) as u64),
            _ => Size::Base(self.random.between(1, 9) as u64),
        }
    }

    /// Few levels, or any reading of 32 bits.
    fn logged_value(&mut self) -> i32 {
        match self.random.below(4) {
            0 => self.random.number() as i32,
            1 => self
                .random
                .choice(&[i32::MIN, i32::MIN + 1, -1, 0, i32::MAX]),
            _ => self.random.between(-9, 9) as i32,
        }
    }

    /// Often about the wrap.
    fn first_counter(&mut self) -> u16 {
        let near = self.random.between(-40, 40) as u16;
        let any = self.random.number() as u16;
        self.random.choice(&[near, near, near ^ 32_768, any, 0])
    }

    /// Shown number by number.
    fn replays_by_hand(&mut self) {
        self.heading("# replays worked by hand");
        let recordings: [&[u16]; 15] = [
            &[],
            &[7],
            &[0],
            &[32_768],
            &[65_535],
            // The newest is the second, not the third.
            &[0, 32_767, 1, 65_534],
            // A difference of 32,768 is taken as -32,768.
            &[0, 32_768],
            &[40_000, 7_232, 7_233, 7_231],
            // Up to the bound and over it, and the same below.
            &[0, 32_766, 65_533, 32_765, 32_764],
            &[0, 32_769, 32_768, 32_767],
            // Over the wrap and back.
            &[65_535, 0, 65_534, 1, 65_533],
            &[2, 65_534, 65_535, 0, 1, 3],
            // Ticks that are taken, and runs too many, of which one is above the newest.
            &[5, 5, 6, 5, 6, 7],
            &[0, 10, 20, 30, 40, 11, 21, 50, 9],
            &[255, 256, 254, 257, 511, 512],
        ];
        for counters in recordings {
            for (size, gaps) in [(Size::Steps(1), 3), (Size::Base(3), 2), (Size::Base(9), 9)] {
                let value = |turn: usize| [5, -3, 700_000, i32::MIN, i32::MAX, -1][turn % 6];
                let frames: Vec<Frame> = (0..)
                    .zip(counters)
                    .map(|(turn, &counter)| Frame {
                        counter,
                        value: value(turn),
                    })
                    .collect();
                self.recording(&frames);
                self.replay_anew(size, gaps);
                self.give(Word::Show, &[]);
                self.worst();
            }
        }
        // Of a record the lowest bits are written, and nothing behind the last place.
        let most = FILE_FRAMES as u64;
        for (at, counter, value) in [
            (0, 65_536 + 5, (1 << 32) + 9),
            (1, u64::MAX, u64::MAX),
            (2, 1 << 16, 1 << 31),
            (most - 1, 3, 4),
            (most, 5, wide(-6)),
            (u64::MAX, 7, 8),
        ] {
            self.frame(at, counter, value);
        }
        for bytes in [18, 12, 6, 0] {
            self.file_length(bytes);
            self.replay_anew(Size::Base(4), 4);
            self.give(Word::Show, &[]);
        }
    }

    /// Bytes of any sort; those of a length that is refused are tried in a room that is good.
    fn short_recordings(&mut self) {
        self.heading("# recordings of 0 to 13 bytes");
        for _ in 0..OF_EACH_LENGTH {
            for length in 0..=13 {
                for at in 0..3 {
                    let counter = u64::from(self.first_counter());
                    let value = self.logged_value();
                    self.frame(at, counter, wide(value));
                }
                self.file_length(length);
                let size = self.small_size();
                let gaps = self.random.between(1, 3) as u64;
                self.replay_anew(size, gaps);
                self.late(32_769, 4);
            }
        }
    }

    /// Ticks one apart or many, each once, then some of them again; K as the order needs it, or less.
    fn replayed_arrivals(&mut self, arrivals: &Arrivals) {
        for turn in 0..48 {
            let (apart, count) = match turn % 6 {
                0 => (1, 30),
                1 => (1, 200),
                2 => (1, 420),
                3 => (60, 200),
                4 => (200, 150),
                _ => (2, 60),
            };
            let order = arrivals.order(count, &mut self.random);
            // As few as the order needs, or a half of them, or as many as there can be.
            let most = u64::from(arrivals::most_runs(&order));
            let gaps = match (turn / 6 % 3, apart) {
                (0, _) => MOST_GAPS,
                (1, 1) => most,
                _ => (most / 2).max(1),
            };
            let steps = [1, 2, 7, 32][turn % 4];
            let first = match turn / 3 % 3 {
                0 => self.first_counter(),
                // It wraps in the middle of them.
                _ => (count as i64 * apart / -2) as u16,
            };
            let origin = i64::from(order[0]);
            let mut frames: Vec<Frame> = order
                .iter()
                .map(|&tick| {
                    let tick = FIRST_TICK + (i64::from(tick) - origin) * apart;
                    frame(first, tick, shapes::square(tick as u64))
                })
                .collect();
            for _ in 0..count / 8 {
                frames.push(self.random.choice(&frames));
            }
            self.recording(&frames);
            self.replay_anew(Size::Steps(steps), gaps);
            self.sweep(FIRST_TICK as u32 - 9, count as u32 / 6, 9);
            self.worst();
        }
    }

    /// Each record some way from the newest: by a bound, by little, by anything, up again and again, or at a tick that is there.
    fn walked_recordings(&mut self) {
        for (name, bounds, least, largest, gaps) in [
            ("at the bounds", 2, -9, 9, [9, 20, 60, 256]),
            ("far and near", 20, -32_768, 32_767, [3, 10, 30, 100]),
            ("near, few runs", 30, -7, 9, [1, 2, 3, 5]),
            ("up over the wraps", 9, 9_000, 32_767, [8, 20, 40, 80]),
        ] {
            self.heading(&format!("# recordings step by step, {name}"));
            for turn in 0..WALKS {
                let size = self.small_size();
                let gaps = gaps[turn % 4];
                let (first, value) = (self.first_counter(), self.logged_value());
                let mut walk = Walk::new(size, gaps, first, value);
                if turn % 3 == 0 {
                    // At tick 0.
                    walk.step(-32_768, value);
                }
                for _ in 0..self.random.between(1, 45) {
                    let difference = match self.random.below(10) {
                        // It may be farther below than a counter tells.
                        0 => (self.random.choice(&walk.ticks) - walk.newest).max(-32_768),
                        1 => 1,
                        _ if self.chance(bounds) => self.random.choice(&BOUNDS),
                        _ => self.random.between(least, largest),
                    };
                    let value = self.logged_value();
                    walk.step(difference, value);
                }
                self.recording(&walk.frames);
                self.replay_anew(size, gaps);
                let newest = walk.newest as u32;
                self.late(newest + 1, 3);
                self.lookup(newest);
            }
        }
    }

    /// As far up as so few records lead, to tick 8,388,608 and above: three ticks to a run, and the next run as far above as a counter tells. The last
    /// one is a run too many.
    fn far_recordings(&mut self) {
        self.heading(FAR);
        for _ in 0..FAR_UP {
            let size = self.small_size();
            let first = self.first_counter();
            let mut walk = Walk::new(size, MOST_GAPS, first, 5);
            for _ in 0..MOST_GAPS {
                for difference in [1, 1, 32_767] {
                    let value = self.logged_value();
                    walk.step(difference, value);
                }
            }
            walk.step(-1, 7);
            self.recording(&walk.frames);
            self.replay_anew(size, MOST_GAPS);
            let newest = walk.newest as u32;
            self.late(newest + 1, 3);
            self.lookup(newest);
        }
    }

    /// By B and by C at each bound, by numbers that would do if some of their bits were lost, and in rooms that are short.
    fn replayed_sizes(&mut self) {
        self.heading("# replayed by either name");
        for turn in 0..OF_EACH_SIZE {
            for size in STEPS {
                self.replay_named(turn, size, 0);
            }
            for size in BASES {
                self.replay_named(turn, size, BY_BASE[turn % 5]);
            }
        }
        for turn in 0..OF_EACH_WIDE {
            for size in WIDE {
                self.replay_named(0, size, 0);
                self.replay_named(0, size, BY_BASE[turn % 5]);
            }
        }
    }

    fn replay_named(&mut self, turn: usize, size: u64, by: u64) {
        let gaps = self.random.choice(&[1, 2, 3, 9, MOST_GAPS]);
        let fitting = needed_numbers(Kind::Late, nearest_base(size, by), gaps);
        let numbers = match turn % 12 {
            5 => fitting - 1,
            11 => fitting - 1 - self.random.below(gaps * SLOT as u64) as usize,
            _ => fitting + self.random.choice(&[0, 0, 1, 5]),
        };
        let first = self.first_counter();
        let ticks = [0, 1, -1, 2, 9, 20].map(|tick| FIRST_TICK + tick);
        let count = self.random.between(0, 6) as usize;
        let frames: Vec<Frame> = ticks[..count]
            .iter()
            .map(|&tick| frame(first, tick, tick as i32 % 5))
            .collect();
        self.recording(&frames);
        self.room(numbers);
        self.set(numbers - 1, -9);
        let kind = self.random.choice(&KINDS);
        self.named(Word::Replay, kind, size, gaps, by);
        self.late(FIRST_TICK as u32 + 3, 3);
    }

    /// Tables of as many buckets as there can be, and about as many.
    fn replayed_large(&mut self) {
        self.heading(LARGEST);
        for (size, gaps) in [
            (Size::Steps(256), 256),
            (Size::Base(512), 255),
            (Size::Base(511), 256),
            (Size::Steps(255), 200),
        ] {
            let first = self.first_counter();
            let mut frames = Vec::new();
            // A run each, some too many; then each run grows.
            for behind in 0..7 {
                for run in 0..260 {
                    let value = self.logged_value();
                    frames.push(frame(first, FIRST_TICK + 40 * run + behind, value));
                }
            }
            self.recording(&frames);
            self.replay_anew(size, gaps);
            self.worst();
            self.row(768);
            self.sweep(FIRST_TICK as u32 - 9, 211, 9);
        }
    }

    /// Every set of the faults that 1, 2, 3 and 7 are for, one after the other over one trace, which goes on each time.
    fn replays_over_a_trace(&mut self) {
        self.heading(OVER_A_TRACE);
        for turn in 0..HELD as u32 {
            let (size, gaps) = (self.small_size(), self.random.between(1, 4) as u64);
            let base = size.base().expect("a size in bounds");
            let fitting = needed_numbers(Kind::Late, base, gaps);
            let kind = [Kind::Late, Kind::Late, Kind::InOrder][turn as usize % 3];
            self.open(kind, size, gaps, fitting + turn as usize % 3);
            let first = self.first_counter();
            let frames: Vec<Frame> = (0..3)
                .map(|tick| frame(first, FIRST_TICK + tick, 8))
                .collect();
            self.recording(&frames);
            for faults in 1..16_u32 {
                let bad = |fault: u32| faults >> fault & 1 == 1;
                let named = match (bad(0), self.random.below(3)) {
                    (false, _) => size,
                    (true, 0) => Size::Base(MOST_BASE + 1),
                    (true, 1) => Size::Steps((1 << 63) + 2),
                    _ => self.random.choice(&[Size::Steps(0), Size::Base(0)]),
                };
                let allowed = if bad(1) {
                    self.random.choice(&BAD_GAPS)
                } else {
                    gaps
                };
                let lent = self.session.lent;
                if bad(2) {
                    let short = self.random.choice(&[1, 2, SLOT, fitting]);
                    self.room(fitting - short);
                }
                let cut = if bad(3) { self.random.between(1, 5) } else { 0 };
                self.file_length(3 * FRAME_BYTES - cut as usize);
                let number = self.random.choice(&KINDS);
                self.replay_as(number, named, allowed);
                self.room(lent);
                match kind {
                    Kind::InOrder => self.next(faults as i32),
                    Kind::Late => self.late(32_760 + faults, faults as i32),
                }
                self.lookup(32_760 + faults);
            }
            self.file_length(3 * FRAME_BYTES);
            // For want of room, where nothing is lent short.
            self.replay_as(1, Size::Base(base + 2), gaps);
            self.worst();
            self.replay_as(0, size, gaps);
            self.give(Word::Show, &[]);
        }
    }

    /// Readings, lookups, searches, rows; saved and loaded, under either name; and replayed again.
    fn replays_gone_on(&mut self) {
        self.heading(GONE_ON_AFTER);
        for turn in 0..GONE_ON {
            let base = self.random.between(1, 12) as u64;
            let gaps = self.random.between(1, 6) as u64;
            let size = match base % 2 {
                0 if turn % 2 == 0 => Size::Steps(base / 2),
                _ => Size::Base(base),
            };
            let first = self.first_counter();
            let mut walk = Walk::new(size, gaps, first, 5);
            for _ in 0..self.random.between(0, 30) {
                let difference = self.random.between(-4, 6);
                let value = self.logged_value();
                walk.step(difference, value);
            }
            let tally = [Name::Accepted, Name::Refused, Name::Merges];
            self.give(Word::Tally, &tally.map(|name| (name, 4_294_967_290)));
            self.recording(&walk.frames);
            self.replay_anew(size, gaps);
            let newest = walk.newest as u32;
            for _ in 0..8 {
                let value = self.logged_value();
                let tick = newest.wrapping_add(self.random.between(-9, 6) as u32);
                self.late(tick, value);
                let word = self.random.choice(&[Word::LateTold, Word::NextTold]);
                self.read(word, tick + 2, value);
                self.lookup(tick);
                self.over(tick - 5, tick + 5, value);
            }
            self.late(0, 1);
            self.late(16_777_215, 1);
            self.worst();
            let used = self.session.state.used;
            self.row(used);
            let bytes = used * RECORD_BYTES as u64;
            self.save(bytes);
            self.give(Word::Take, &[(Name::Bytes, bytes)]);
            self.fill(-3);
            self.load_as(1, Size::Base(base), gaps);
            self.late(newest + 8, 2);
            // A saved file of three records, or six, is as long as a recording.
            self.replay_as(1, size, gaps);
            self.recording(&walk.frames);
            self.replay_as(1, size, gaps);
            self.give(Word::Show, &[]);
        }
    }

    /// Bursty, by settings that accept it wholly and that do not; then the whole file, which is of no length for a recording.
    fn long_recording(&mut self) {
        self.heading("# a long recording");
        let order = Arrivals::Delayed(BURSTY).order(LONG, &mut self.random);
        let origin = i64::from(order[0]);
        let ticks = order.iter().map(|&tick| i64::from(tick) - origin);
        let frames: Vec<Frame> = ticks
            .map(|tick| {
                frame(
                    60_000,
                    FIRST_TICK + tick,
                    shapes::square(tick as u64 % 5_000),
                )
            })
            .collect();
        self.recording(&frames);
        let most = u64::from(arrivals::most_runs(&order));
        for (size, gaps) in [
            (Size::Steps(32), most),
            (Size::Base(9), most - 1),
            (Size::Steps(2), 3),
        ] {
            self.replay_anew(size, gaps);
            self.worst();
            self.sweep(FIRST_TICK as u32 - 1, LONG as u32 / 7, 9);
            let used = self.session.state.used;
            self.row(used);
        }
        self.room(NUMBERS);
        for bytes in [FILE_FRAMES * FRAME_BYTES, FILE_BYTES] {
            self.file_length(bytes);
            self.replay_as(1, Size::Base(5), 5);
            self.load_as(1, Size::Base(5), 5);
        }
        self.give(Word::File, &[(Name::Bytes, u64::MAX)]);
        self.replay_as(1, Size::Base(5), 5);
        self.give(Word::Take, &[(Name::Bytes, BYTES as u64 + 6)]);
        self.replay_as(1, Size::Base(5), 5);
    }
}
