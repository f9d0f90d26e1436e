//! The sorts of recordings that replays are told apart by, told from what became of each record.

use crate::calls::{Size, State, Trace, LENGTH, RUNS, TAKEN};
use crate::counts::Met;
use crate::logger::{self, Outcome};
use crate::rule::Kind;

/// Recordings up to this long are counted by their bytes: none, one and two records, and what is beside them.
const SHORT_BYTES: usize = 13;
/// The one that takes its time.
const LONG_RECORDS: usize = 100_000;
/// So many recordings of each sort, and so many of each short length, at the least.
const OF_EACH_SORT: u64 = 100;
const OF_EACH_LENGTH: u64 = 20;

/// A sort by its name, and whether a recording is of it.
pub type Sort = (&'static str, fn(&[Outcome]) -> bool);

pub const SORTS: [Sort; 16] = [
    ("recording: wraps forward", |all| {
        all.iter().any(wraps_forward)
    }),
    ("recording: wraps forward three times", |all| {
        let upward = |one: &&Outcome| wraps_forward(one) && one.refusal.is_none();
        all.iter().filter(upward).count() >= 3
    }),
    ("recording: wraps backward", |all| {
        all.iter().any(wraps_backward)
    }),
    ("recording: wraps backward and is accepted", |all| {
        let accepted = |one: &Outcome| wraps_backward(one) && one.refusal.is_none();
        all.iter().any(accepted)
    }),
    ("recording: a difference of -32768", |all| {
        differs_by(all, -32_768)
    }),
    ("recording: a difference of -32767", |all| {
        differs_by(all, -32_767)
    }),
    ("recording: a difference of 32766", |all| {
        differs_by(all, 32_766)
    }),
    ("recording: a difference of 32767", |all| {
        differs_by(all, 32_767)
    }),
    ("recording: a reading at tick 0", |all| {
        all.iter().any(|one| one.tick == 0 && one.refusal.is_none())
    }),
    ("recording: a reading at tick 8388608 or above", |all| {
        let far = |one: &Outcome| one.tick >= 1 << 23 && one.refusal.is_none();
        all.iter().any(far)
    }),
    ("recording: all of several accepted", |all| {
        all.len() > 1 && all.iter().all(|one| one.refusal.is_none())
    }),
    // What comes behind shows whether the newest stayed.
    ("recording: refused by 11 before an accepted one", |all| {
        before_accepted(all, |one| is_refused(one, TAKEN))
    }),
    ("recording: refused by 9 before an accepted one", |all| {
        before_accepted(all, |one| is_refused(one, RUNS))
    }),
    (
        "recording: refused above the newest before an accepted one",
        |all| {
            let above = |one: &Outcome| one.difference() > Some(0);
            before_accepted(all, |one| one.refusal.is_some() && above(one))
        },
    ),
    (
        "recording: accepted below the newest before an accepted one",
        |all| {
            let below = |one: &Outcome| one.difference() < Some(0) && one.newest.is_some();
            before_accepted(all, |one| one.refusal.is_none() && below(one))
        },
    ),
    ("recording: a reading below 0", |all| {
        let below = |one: &Outcome| one.frame.value < 0 && one.refusal.is_none();
        all.iter().any(below)
    }),
];

fn wraps_forward(one: &Outcome) -> bool {
    one.difference() > Some(0) && Some(one.frame.counter) < one.newest
}

fn wraps_backward(one: &Outcome) -> bool {
    let backward = one.difference().is_some_and(|difference| difference < 0);
    backward && Some(one.frame.counter) > one.newest
}

fn differs_by(all: &[Outcome], difference: i64) -> bool {
    all.iter().any(|one| one.difference() == Some(difference))
}

fn is_refused(one: &Outcome, number: u32) -> bool {
    one.refusal.is_some_and(|refusal| refusal.number == number)
}

fn before_accepted(all: &[Outcome], is: impl Fn(&Outcome) -> bool) -> bool {
    let mut rest = all.iter().skip_while(|one| !is(one)).skip(1);
    rest.any(|one| one.refusal.is_none())
}

/// What a replay meets, and how often: its records by what became of them, and the sorts that its recording is of. The state is the answered one.
pub fn met(state: State, refusal: u32, recording: &[u8]) -> Met {
    let mut met = Met::new();
    let mut count = |what: String| *met.entry(what).or_default() += 1;
    let length = recording.len();
    if [0, LENGTH].contains(&refusal) && length <= SHORT_BYTES {
        count(of_bytes(length));
    }
    if refusal != 0 {
        return met;
    }
    let outcomes = outcomes(state, recording);
    for one in &outcomes {
        count(match one.refusal {
            None => "record accepted".to_string(),
            Some(refusal) => format!("record refused {}", refusal.number),
        });
    }
    for (name, _) in SORTS.iter().filter(|(_, is)| is(&outcomes)) {
        count(name.to_string());
    }
    if outcomes.len() == LONG_RECORDS {
        count(of_long());
    }
    met
}

/// Replayed once more, by the settings of the answered state.
fn outcomes(state: State, recording: &[u8]) -> Vec<Outcome> {
    let size = Size::Base(state.base);
    let trace = Trace::open(state.edition, Kind::Late, size, state.gaps);
    let mut trace = trace.expect("settings in bounds");
    let mut outcomes = Vec::new();
    logger::replayed(&mut trace, recording, |one| outcomes.push(one));
    outcomes
}

fn of_bytes(bytes: usize) -> String {
    format!("recording of {bytes} bytes")
}

fn of_long() -> String {
    format!("recording of {LONG_RECORDS} records")
}

/// How often each sort must be met.
pub fn wanted() -> Met {
    let mut wanted = Met::new();
    for (sort, _) in SORTS {
        wanted.insert(sort.to_string(), OF_EACH_SORT);
    }
    for bytes in 0..=SHORT_BYTES {
        wanted.insert(of_bytes(bytes), OF_EACH_LENGTH);
    }
    wanted.insert(of_long(), 1);
    wanted.insert("record accepted".to_string(), 100_000);
    for number in [TAKEN, RUNS] {
        wanted.insert(format!("record refused {number}"), 4_000);
    }
    wanted
}
