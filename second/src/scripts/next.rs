//! Traces in order: those worked by hand, short ones with few levels for many ties, long ones, and ones whose last ticks are near.

use crate::calls::{self, Size};
use crate::command::Word;
use crate::rule::{Kind, TICKS};
use crate::script::Script;
use crate::shapes::{self, Shape, SHAPES};

pub fn write(script: &mut Script) {
    script.in_each_edition(|script| script.worked(true));
    script.short_traces();
    script.long_traces();
    script.near_the_end();
}

impl Script {
    /// H2 to H7 and traces in which the editions differ, shown after each reading where that is asked for, and lookups about every tick.
    pub(super) fn worked(&mut self, shown: bool) {
        self.heading("# worked by hand, in order");
        let traces: [(u64, &[i32]); 9] = [
            (1, &[1, 4, 2, 9]),
            (1, &[0, 1, 2]),
            (1, &[5, 5, 5]),
            (2, &[0, 5, 9, 14, 18]),
            (1, &[-3, 0, 9]),
            (1, &[i32::MIN, i32::MAX, i32::MIN]),
            (1, &[i32::MIN, i32::MAX, i32::MAX, i32::MIN, 0, -1]),
            (1, &[5, 5, 5, 5]),
            (2, &[5, 5, 5, 5, 5, 5, 9, 9, 9]),
        ];
        for (steps, values) in traces {
            self.open_fitting(Kind::InOrder, Size::Steps(steps), 0);
            for &value in values {
                self.next(value);
                if shown {
                    self.give(Word::Show, &[]);
                }
            }
            self.sweep(u32::MAX, 1, values.len() as u32 + 2);
        }
    }

    /// Every reading of a shape.
    pub(super) fn feed(&mut self, shape: u8, count: u64, seed: u32) {
        let readings = shapes::readings(Shape::of(shape), seed);
        for reading in readings.take(count as usize) {
            self.next(reading.value);
        }
    }

    fn seed(&mut self) -> u32 {
        self.random.number() as u32
    }

    /// Then a late reading, which is of the other kind.
    fn short_traces(&mut self) {
        self.heading("# in order, each reading told");
        for steps in [1, 1, 1, 1, 2, 2, 2, 3, 3, 4, 5, 8, 9] {
            for shape in 0..SHAPES {
                let seed = self.seed();
                self.open_fitting(Kind::InOrder, Size::Steps(steps), 0);
                self.feed(shape, 6 * steps + 6, seed);
                self.late(0, 1);
                self.worst();
            }
        }
    }

    /// B up to its bound; the next trace finds in its room what the one before left.
    fn long_traces(&mut self) {
        self.heading("# in order, far past the limit");
        for steps in [1, 2, 3, 7, 16, 32, 33, 64, 100, 128, 200, 255, 256] {
            for shape in 0..SHAPES {
                let seed = self.seed();
                let extra = self.random.below(40) as usize;
                let lent = calls::needed_numbers(Kind::InOrder, 2 * steps, 0) + extra;
                self.open(Kind::InOrder, Size::Steps(steps), 0, lent);
                let count = 3 * steps + 300;
                self.feed(shape, count, seed);
                self.sweep(seed % 9, count as u32 / 6, 8);
                self.worst();
            }
        }
        // One trace fed by one shape after the other.
        self.open_fitting(Kind::InOrder, Size::Steps(32), 0);
        for turn in 0..12 {
            let seed = self.seed();
            self.feed(turn % SHAPES, 500, seed);
        }
    }

    /// The last reading is taken, the one after it is not.
    fn near_the_end(&mut self) {
        self.heading("# a trace's last ticks");
        for word in [Word::Next, Word::NextTold] {
            for steps in [1, 2, 256] {
                for left in [0, 1, 2] {
                    self.open_fitting(Kind::InOrder, Size::Steps(steps), 0);
                    self.lay(&[[0, (TICKS - left) as i64, -7, 9]], 1);
                    for value in [3, 4, 5] {
                        self.read(word, 0, value);
                    }
                    self.sweep(TICKS as u32 - 2, 1, 4);
                }
            }
        }
        for word in [Word::Late, Word::LateTold] {
            self.open_fitting(Kind::Late, Size::Steps(1), 2);
            let last = TICKS as u32 - 1;
            for tick in [0, last + 1, last, u32::MAX, last - 1] {
                self.read(word, tick, 6);
                self.lookup(tick);
            }
        }
        let ticks = TICKS as i64;
        for (first, second) in [(ticks - 1, 1), (ticks, 1), (1, ticks), (ticks - 2, 1)] {
            self.open_fitting(Kind::InOrder, Size::Steps(2), 0);
            let largest = 3 + first.min(2) - 1;
            self.lay(&[[0, first, 3, largest], [first, second, 3, 3]], 1);
            self.next(3);
            self.next(3);
        }
    }
}
