//! Soundness clause by clause, in numbers so wide that none wraps: which clauses a state and a room break.

use crate::calls::{State, SLOT};
use crate::rule::{Kind, TICKS};

pub const CLAUSES: [&str; 11] = [
    "base in bounds",
    "gaps in bounds",
    "runs allowed",
    "room long enough",
    "buckets within the limit",
    "numbers in range",
    "record rules",
    "runs true",
    "readings true",
    "unused slots zero",
    "edition 1 or 2",
];

/// The place of the edition among them.
pub const EDITION_CLAUSE: usize = 10;

/// Whether each clause is broken. Numbers that the room does not have count as zeros.
pub fn broken(state: State, room: &[i64]) -> [bool; CLAUSES.len()] {
    let late = state.kind == Kind::Late;
    let wide = |number: u64| i128::from(number);
    let bounded = |number: u64, most: u64| (1..=most).contains(&number);
    let missing_ticks = if late { wide(state.gaps) } else { 0 };
    let needed = wide(state.base) + missing_ticks + 1;
    let limit = wide(state.base) + if late { wide(state.runs) } else { 0 };
    let slots = room.len() as i128;
    let said = wide(state.used).min(slots + 1) as usize;
    let table = Table::read(late, room, said);
    let end = (needed.min(slots) * SLOT as i128).min(slots) as usize;
    let unused = room.get(said * SLOT..end).unwrap_or(&[]);
    [
        !bounded(state.base, 512),
        if late {
            !bounded(state.gaps, 256)
        } else {
            state.gaps != 0
        },
        late && state.runs > state.gaps,
        slots < needed * SLOT as i128,
        wide(state.used) > limit,
        !table.in_range,
        !table.ruled,
        wide(state.runs) != table.runs,
        wide(state.readings) != table.readings,
        unused.iter().any(|&number| number != 0),
        state.edition != 1 && state.edition != 2,
    ]
}

/// The clause that is broken where no other is.
pub fn alone(broken: &[bool; CLAUSES.len()]) -> Option<usize> {
    let mut which = (0..CLAUSES.len()).filter(|&clause| broken[clause]);
    let first = which.next();
    match which.next() {
        None => first,
        Some(_) => None,
    }
}

struct Table {
    in_range: bool,
    ruled: bool,
    runs: i128,
    readings: i128,
}

impl Table {
    fn read(late: bool, room: &[i64], said: usize) -> Table {
        let mut table = Table {
            in_range: true,
            ruled: true,
            runs: 0,
            readings: 0,
        };
        let mut end = 0;
        for slot in 0..said {
            let field = |place| i128::from(room.get(slot * SLOT + place).copied().unwrap_or(0));
            let [start, count, least, largest] = [0, 1, 2, 3].map(field);
            let unsigned = |number| (0..1 << 32).contains(&number);
            let signed = |number| (-(1 << 31)..1 << 31).contains(&number);
            table.in_range &=
                unsigned(start) && unsigned(count) && signed(least) && signed(largest);
            table.ruled &= count >= 1
                && start + count <= i128::from(TICKS)
                && least <= largest
                && (count != 1 || least == largest)
                && if late { start >= end } else { start == end };
            table.runs += i128::from(slot == 0 || start != end);
            table.readings += count;
            end = start + count;
        }
        table
    }
}
