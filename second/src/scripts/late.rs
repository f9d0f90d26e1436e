//! Late readings in ten orders of ticks, few runs allowed and many, up to the bounds of B and K; and the late traces worked by hand.

use crate::calls::Size;
use crate::command::Word;
use crate::rule::Kind;
use crate::script::Script;
use crate::shapes::{self, Shape};

/// Those from 6 on are by chance, among ever more ticks.
pub const ORDERS: [u8; 10] = [0, 1, 2, 3, 4, 5, 6, 7, 20, 255];

pub fn heading(order: u8) -> String {
    format!("# late, order {order}")
}

pub fn write(script: &mut Script) {
    script.in_each_edition(|script| script.worked_late(true));
    for order in ORDERS {
        script.heading(&heading(order));
        script.short_late(order);
        script.long_late(order);
    }
}

impl Script {
    /// H8 to H11 and a trace in which the editions differ, shown after each reading where that is asked for, and lookups about every tick.
    pub(super) fn worked_late(&mut self, shown: bool) {
        self.heading("# worked by hand, late");
        let traces: [&[(u32, i32)]; 3] = [
            &[
                (0, 1),
                (1, 4),
                (2, 2),
                (3, 9),
                (6, 2),
                (5, 3),
                (4, 8),
                (5, 7),
                (8, 0),
                (10, 0),
            ],
            &[(0, 1), (2, 5), (1, 9)],
            // At tick 3 the gap between two flat stretches closes, which takes two merges.
            &[
                (0, 5),
                (1, 5),
                (2, 5),
                (5, 5),
                (6, 5),
                (4, 5),
                (3, 5),
                (7, 5),
            ],
        ];
        for readings in traces {
            self.open_fitting(Kind::Late, Size::Steps(1), 2);
            for &(tick, value) in readings {
                self.late(tick, value);
                if shown {
                    self.give(Word::Show, &[]);
                }
            }
            self.sweep(u32::MAX, 1, 13);
        }
    }

    pub(super) fn feed_late(&mut self, order: u8, shape: u8, count: u64) {
        let seed = self.random.number() as u32;
        let readings = shapes::readings(Shape::of(shape), seed);
        for reading in readings.take(count as usize) {
            self.late(reading.tick(order), reading.value);
        }
    }

    /// Then a reading in order, which is of the other kind.
    fn short_late(&mut self, order: u8) {
        for (steps, gaps) in [(1, 1), (1, 2), (1, 9), (2, 3), (3, 5), (5, 20)] {
            for shape in [2, 4, 5] {
                self.open_fitting(Kind::Late, Size::Steps(steps), gaps);
                self.feed_late(order, shape, 6 * steps + 20);
            }
            self.sweep(0, 7, 12);
            self.worst();
            self.next(1);
        }
    }

    /// Far past the limit; of random ticks ever more are taken.
    fn long_late(&mut self, order: u8) {
        for (steps, gaps) in [(1, 256), (4, 16), (32, 8), (100, 200), (256, 1), (256, 256)] {
            for shape in [2, 4] {
                self.open_fitting(Kind::Late, Size::Steps(steps), gaps);
                self.feed_late(order, shape, 3 * steps + 300);
            }
            self.sweep(3, 97, 8);
            self.worst();
        }
    }
}
