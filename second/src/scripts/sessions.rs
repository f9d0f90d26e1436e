//! Traces that are fed with readings of which some are refused, each with a session tally that is fresh or near its stop; then their rows.
//!
//! A reading goes to the call of the trace's kind. But the turns that leave 9 by 17 are asked of a state that counts a reading too many; of the
//! others those that leave 5 by 11 go to the call of the other kind; of the others those that leave 7 by 13 have the tick 16,777,216.

use crate::calls::Size;
use crate::command::{Name, Word};
use crate::rule::{Kind, TICKS};
use crate::script::Script;

#[derive(Clone, Copy)]
enum Order {
    Up,
    ByFive,
    Down,
    ByMany,
}

#[derive(Clone, Copy)]
enum Beginning {
    Opened,
    /// From one record, two ticks before the last.
    Loaded,
}

/// Accepted, refused and merges to begin with.
const FRESH: [u32; 3] = [0; 3];
/// Each count is a few readings before its stop.
const NEARLY_FULL: [u32; 3] = [u32::MAX - 4, u32::MAX - 1, u32::MAX - 3];

const VALUES: [i32; 9] = [0, 5, -3, i32::MAX, 12, 12, i32::MIN, 7, -1];

/// Kind, B, K, tally, beginning, order, number of readings.
type Session = (Kind, u64, u64, [u32; 3], Beginning, Order, u32);

fn all() -> [Session; 13] {
    use Beginning::{Loaded, Opened};
    use Kind::{InOrder, Late};
    use Order::{ByFive, ByMany, Down, Up};
    [
        (InOrder, 1, 0, FRESH, Opened, Up, 40),
        (InOrder, 2, 0, FRESH, Opened, Up, 40),
        (InOrder, 32, 0, FRESH, Opened, Up, 200),
        (InOrder, 2, 0, NEARLY_FULL, Opened, Up, 60),
        (InOrder, 2, 0, FRESH, Loaded, Up, 12),
        (Late, 1, 1, FRESH, Opened, Up, 40),
        (Late, 1, 2, FRESH, Opened, ByFive, 60),
        (Late, 2, 3, FRESH, Opened, ByFive, 60),
        (Late, 3, 5, FRESH, Opened, Down, 40),
        (Late, 2, 4, NEARLY_FULL, Opened, ByFive, 60),
        (Late, 32, 8, FRESH, Opened, ByMany, 300),
        (Late, 32, 256, FRESH, Opened, ByMany, 300),
        (Late, 1, 2, FRESH, Loaded, Down, 12),
    ]
}

pub fn write(script: &mut Script) {
    script.heading("# sessions");
    for session in all() {
        script.whole_session(session);
    }
}

fn tick(order: Order, turn: u32) -> u32 {
    match order {
        Order::Up => turn,
        Order::ByFive => turn * 5 % 23,
        Order::Down => TICKS as u32 - 1 - turn,
        Order::ByMany => turn * 89 % 211,
    }
}

impl Script {
    fn whole_session(&mut self, session: Session) {
        let (kind, steps, gaps, tally, beginning, order, readings) = session;
        let [accepted, refused, merges] = tally.map(u64::from);
        let counts = [
            (Name::Accepted, accepted),
            (Name::Refused, refused),
            (Name::Merges, merges),
        ];
        self.give(Word::Tally, &counts);
        self.room(1_284);
        match beginning {
            Beginning::Opened => self.open_as(kind as u64, Size::Steps(steps), gaps),
            Beginning::Loaded => {
                self.record(0, [0, TICKS as i64 - 2, -3, 9]);
                self.file_length(16);
                self.load_as(kind as u64, Size::Steps(steps), gaps);
            }
        }
        for turn in 0..readings {
            self.turn(turn, tick(order, turn));
        }
        self.rows();
    }

    fn turn(&mut self, turn: u32, tick: u32) {
        let late = self.session.state.kind == Kind::Late;
        let value = VALUES[turn as usize % VALUES.len()];
        let word = |late| if late { Word::LateTold } else { Word::NextTold };
        if turn % 17 == 9 {
            self.miscounted(|script| script.read(word(late), tick, value));
        } else if turn % 11 == 5 {
            self.read(word(!late), tick, value);
        } else if turn % 13 == 7 {
            self.read(word(late), TICKS as u32, value);
        } else {
            self.read(word(late), tick, value);
        }
    }

    /// With a state that counts a reading too many, which is not sound.
    fn miscounted(&mut self, calls: impl FnOnce(&mut Script)) {
        let readings = self.session.state.readings;
        self.state(Name::Readings, readings + 1);
        calls(self);
        self.state(Name::Readings, readings);
    }

    fn rows(&mut self) {
        let used = self.session.state.used;
        self.blank(16 * (used + 2), 119);
        self.row(used.saturating_sub(1));
        self.row(used);
        self.row(used + 1);
        self.miscounted(|script| {
            script.row(used);
            script.row(used.saturating_sub(1));
            script.worst();
        });
        self.worst();
    }
}
