//! The sorts of calls that B and C are told apart by, told from the answer and from the states before and after it.

use crate::calls::{
    needed_numbers, Size, State, MOST_BASE, MOST_GAPS, MOST_STEPS, OVERFULL, ROOM, SLOT, STEPS,
    UNSOUND,
};
use crate::command::{Command, Name, Word};
use crate::counts::Met;
use crate::rule::{self, Kind};
use crate::session::size_of;

/// One call but for level and error: the states that it was given and that it left, 0 or its refusal, and the numbers lent.
pub struct Call<'a> {
    pub command: &'a Command,
    pub before: State,
    pub after: State,
    pub refusal: u32,
    pub lent: usize,
    /// The kind of the trace, and K; of an open or a load as it names them, of a replay late and as it names it.
    pub kind: Kind,
    pub gaps: u64,
    /// What the trace at hand was opened, loaded or replayed by.
    pub opened: Option<Size>,
}

/// So many calls of each sort, at the least.
const OF_EACH_SORT: u64 = 100;

/// Accepted, at the bounds and between.
const GOOD: [Size; 8] = [
    Size::Steps(1),
    Size::Steps(MOST_STEPS),
    Size::Base(1),
    Size::Base(2),
    Size::Base(3),
    Size::Base(63),
    Size::Base(MOST_BASE - 1),
    Size::Base(MOST_BASE),
];
/// Refused by 1, next to the bounds.
const BAD: [Size; 4] = [
    Size::Steps(0),
    Size::Steps(MOST_STEPS + 1),
    Size::Base(0),
    Size::Base(MOST_BASE + 1),
];
const BY: [u64; 6] = [0, 1, 2, 1 << 32, 1 << 63, u64::MAX];
pub const KINDS: [Kind; 2] = [Kind::InOrder, Kind::Late];
/// Base limits whose tables merge.
const MERGED: [u64; 6] = [1, 2, 3, 63, 511, 512];

/// Sizes that are refused, and would be taken by whoever loses some of their bits.
const WOULD_DO: [(&str, fn(Size) -> bool); 6] = [
    (
        "B that doubles to a good C in 64 bits",
        |size| matches!(size, Size::Steps(steps) if steps >> 63 == 1 && good(steps.wrapping_mul(2))),
    ),
    ("B that doubles to a good C in 32 bits", |size| {
        let doubled = |steps: u64| u64::from((steps as u32).wrapping_mul(2));
        matches!(size, Size::Steps(steps) if steps as u32 >> 31 == 1 && good(doubled(steps)))
    }),
    (
        "B good in its lowest 32 bits",
        |size| matches!(size, Size::Steps(steps) if good(2 * u64::from(steps as u32))),
    ),
    (
        "C good in its lowest 32 bits",
        |size| matches!(size, Size::Base(base) if good(u64::from(base as u32))),
    ),
    (
        "C that doubles to a good C in 64 bits",
        |size| matches!(size, Size::Base(base) if base >> 63 == 1 && good(base.wrapping_mul(2))),
    ),
    ("C of 64 ones", |size| size == Size::Base(u64::MAX)),
];

/// What a call's state is by name, whether it is unsound then, and whether a state is of that sort.
type StateSort = (&'static str, bool, fn(&State) -> bool);

const STATES: [StateSort; 7] = [
    ("base 0", true, |state| state.base == 0),
    ("base 513", true, |state| state.base == MOST_BASE + 1),
    ("base above 32 bits", true, |state| state.base >> 32 != 0),
    ("a bucket more than an odd limit", true, |state| {
        state.base <= MOST_BASE && state.base % 2 == 1 && state.used == limit(state) + 1
    }),
    ("as many buckets as an odd limit", false, |state| {
        state.base % 2 == 1 && state.used == limit(state)
    }),
    ("an odd base", false, |state| state.base % 2 == 1),
    ("base 512", false, |state| state.base == MOST_BASE),
];

fn good(base: u64) -> bool {
    (1..=MOST_BASE).contains(&base)
}

fn limit(state: &State) -> u64 {
    rule::limit(state.kind, state.base, state.runs.min(MOST_GAPS))
}

fn parity(base: u64) -> &'static str {
    ["even", "odd"][base as usize % 2]
}

pub fn kind_name(kind: Kind) -> &'static str {
    match kind {
        Kind::InOrder => "in order",
        Kind::Late => "late",
    }
}

/// The kinds of trace that a word opens.
pub fn kinds(word: Word) -> &'static [Kind] {
    match word {
        Word::Replay => &[Kind::Late],
        _ => &KINDS,
    }
}

fn of_size(word: Word, size: Size, kind: Kind) -> String {
    let kind = kind_name(kind);
    match size {
        Size::Steps(steps) => format!("{} of B {steps}, {kind}", word.text()),
        Size::Base(base) => format!("{} of C {base}, {kind}", word.text()),
    }
}

/// The names of all sorts that the call is of.
pub fn sorts(call: &Call) -> Vec<String> {
    match call.command.word {
        Word::Open | Word::Load | Word::Replay => call.of_settings(),
        Word::Next | Word::NextTold | Word::Late | Word::LateTold if call.refusal == 0 => {
            [call.of_state(), call.of_reading()].concat()
        }
        _ => call.of_state(),
    }
}

impl Call<'_> {
    fn of_settings(&self) -> Vec<String> {
        let word = self.command.word;
        let size = size_of(self.command);
        let kind = kind_name(self.kind);
        let mut sorts = Vec::new();
        match self.refusal {
            0 => {
                if GOOD.contains(&size) {
                    sorts.push(of_size(word, size, self.kind));
                }
                if let Size::Base(base) = size {
                    sorts.push(format!("{} of {} C, {kind}", word.text(), parity(base)));
                }
                let by = self.command.number(Name::By);
                if BY.contains(&by) {
                    sorts.push(format!("{} by {by}", word.text()));
                }
            }
            STEPS => {
                if BAD.contains(&size) {
                    sorts.push(of_size(word, size, self.kind));
                }
                for (name, _) in WOULD_DO.iter().filter(|(_, is)| is(size)) {
                    sorts.push(format!("{} of {name}", word.text()));
                }
            }
            ROOM => {
                let base = size.base().expect("1 is asked before 3");
                let needed = needed_numbers(self.kind, base, self.gaps);
                if self.lent + 1 == needed {
                    sorts.push(format!("{} a number short, {kind}", word.text()));
                }
                if self.lent >= (base as usize + 1) * SLOT {
                    sorts.push(format!("{} short for want of K", word.text()));
                }
            }
            _ => {}
        }
        if word == Word::Load {
            sorts.extend(self.of_reload(size).map(String::from));
        }
        sorts
    }

    /// A load by another size than the trace at hand has, which is in the file; or by the same under another name.
    fn of_reload(&self, size: Size) -> Option<&'static str> {
        let base = size.base()?;
        let State { base: there, .. } = self.before;
        if self.before.used == 0 || self.opened?.base()? != there {
            return None;
        }
        let moved = State {
            base,
            ..self.before
        };
        let same = self.refusal == 0 && self.after == moved;
        let full = self.before.used == limit(&self.before);
        match (self.opened?, size) {
            (Size::Steps(_), Size::Base(_)) if same && base == there => Some(BY_C),
            (Size::Base(_), Size::Steps(_)) if same && base == there => Some(BY_B),
            _ if same && base == there + 1 => Some(ONE_MORE),
            _ if same && base + 1 == there => Some(ONE_LESS),
            _ if self.refusal == OVERFULL && base + 1 == there && full => Some(ONE_LESS_REFUSED),
            _ => None,
        }
    }

    fn of_reading(&self) -> Vec<String> {
        let kind = kind_name(self.kind);
        let base = self.after.base;
        let merges = self.before.used + 1 - self.after.used;
        let mut sorts = Vec::new();
        if merges > 0 {
            sorts.push(format!("merged at {} C, {kind}", parity(base)));
            if MERGED.contains(&base) {
                sorts.push(format!("merged at C {base}, {kind}"));
            }
        }
        if merges == 0 && self.after.used == limit(&self.after) {
            sorts.push(format!("filled at {} C, {kind}", parity(base)));
        }
        if merges == 2 {
            sorts.push(format!("two merges at {} C", parity(base)));
        }
        sorts
    }

    fn of_state(&self) -> Vec<String> {
        let unsound = self.refusal == UNSOUND;
        let is = |(_, refused, is): &&StateSort| *refused == unsound && is(&self.before);
        let name = |(name, ..): &StateSort| format!("state of {name}");
        STATES.iter().filter(is).map(name).collect()
    }
}

const BY_C: &str = "loaded by C, opened by B";
const BY_B: &str = "loaded by B, opened by C";
const ONE_MORE: &str = "loaded by one more";
const ONE_LESS: &str = "loaded by one less";
const ONE_LESS_REFUSED: &str = "loaded by one less, overfull";

/// How often each sort must be met.
pub fn wanted() -> Met {
    let mut sorts = vec![];
    for word in [Word::Open, Word::Load, Word::Replay] {
        let text = word.text();
        for &kind in kinds(word) {
            sorts.extend(
                GOOD.iter()
                    .chain(&BAD)
                    .map(|&size| of_size(word, size, kind)),
            );
            let kind = kind_name(kind);
            sorts.extend(["odd", "even"].map(|parity| format!("{text} of {parity} C, {kind}")));
            sorts.push(format!("{text} a number short, {kind}"));
        }
        sorts.extend(BY.map(|by| format!("{text} by {by}")));
        sorts.extend(WOULD_DO.map(|(name, _)| format!("{text} of {name}")));
        sorts.push(format!("{text} short for want of K"));
    }
    for kind in KINDS.map(kind_name) {
        for parity in ["odd", "even"] {
            sorts.push(format!("merged at {parity} C, {kind}"));
            sorts.push(format!("filled at {parity} C, {kind}"));
        }
        sorts.extend(MERGED.map(|base| format!("merged at C {base}, {kind}")));
    }
    sorts.extend(["odd", "even"].map(|parity| format!("two merges at {parity} C")));
    sorts.extend(STATES.map(|(name, ..)| format!("state of {name}")));
    sorts.extend([BY_C, BY_B, ONE_MORE, ONE_LESS, ONE_LESS_REFUSED].map(String::from));
    let each = |sort| (sort, OF_EACH_SORT);
    sorts.into_iter().map(each).collect()
}
