//! The sorts of searches for the first bucket over a bar, told from the answer and the trace at hand.

use crate::calls::{Refusal, TICK, UNSOUND};
use crate::command::{Command, Name};
use crate::rule::{Bucket, Kind, TICKS};
use crate::session::Session;

/// One search and its answer; a refused one has no buckets here and no hit.
pub struct Search {
    late: bool,
    table: Vec<Bucket>,
    first: u64,
    last: u64,
    bar: i64,
    refusal: Option<u32>,
    hit: Option<usize>,
}

/// A sort by its name, and whether a search is of it.
pub type Sort = (&'static str, fn(&Search) -> bool);

pub const SORTS: [Sort; 38] = [
    ("search: a hit", |search| search.of_hit(|_| true)),
    ("search: a hit in order", |search| {
        search.of_hit(|_| !search.late)
    }),
    ("search: a hit late", |search| {
        search.of_hit(|_| search.late)
    }),
    ("search: none", |search| search.none()),
    ("search: of an empty trace", |search| {
        search.none() && search.table.is_empty()
    }),
    // Where the hit is.
    (
        "search: hit at the first bucket of three or more",
        |search| search.hit == Some(0) && search.table.len() >= 3,
    ),
    ("search: hit at a middle bucket", |search| {
        let last = search.table.len().saturating_sub(1);
        search.hit.is_some_and(|hit| 0 < hit && hit < last)
    }),
    (
        "search: hit at the last bucket of three or more",
        |search| search.hit > Some(1) && search.hit == Some(search.table.len() - 1),
    ),
    ("search: hit past the 256th bucket", |search| {
        search.hit > Some(255)
    }),
    ("search: hit past the 512th bucket", |search| {
        search.hit > Some(511)
    }),
    ("search: more hits behind the first", |search| {
        let behind = |index| search.hit.is_some_and(|hit| hit < index);
        search.any_touched(|index, bucket| behind(index) && search.is_over(bucket))
    }),
    // Where the range is.
    ("search: begins inside the hit bucket", |search| {
        search.of_hit(|hit| hit.start < search.first)
    }),
    ("search: ends inside the hit bucket", |search| {
        search.of_hit(|hit| search.last + 1 < hit.end())
    }),
    ("search: begins and ends inside the hit bucket", |search| {
        search.of_hit(|hit| hit.start < search.first && search.last + 1 < hit.end())
    }),
    ("search: hit by one tick", |search| {
        search.of_hit(|_| search.first == search.last)
    }),
    ("search: wholly in a gap", |search| {
        search.in_gap(|_, after| search.last < after.start)
    }),
    (
        "search: wholly in a gap between two over the bar",
        |search| {
            let both = |pair: [&Bucket; 2]| pair.iter().all(|bucket| search.is_over(bucket));
            search.in_gap(|before, after| search.last < after.start && both([before, after]))
        },
    ),
    ("search: begins in a gap and hits", |search| {
        search.in_gap(|_, _| search.hit.is_some())
    }),
    ("search: above the last tick held", |search| {
        let end = search.table.last().map(Bucket::end);
        !search.is_empty() && end.is_some_and(|end| end <= search.first)
    }),
    ("search: hit up to the last tick of all", |search| {
        search.of_hit(|_| search.last == TICKS - 1)
    }),
    ("search: hit by the last tick of all alone", |search| {
        search.of_hit(|_| search.first == TICKS - 1)
    }),
    ("search: hit behind one over before the range", |search| {
        let before = |bucket: &Bucket| bucket.end() <= search.first && search.is_over(bucket);
        search.of_hit(|_| search.table.iter().any(before))
    }),
    ("search: none before one over behind the range", |search| {
        let behind = |bucket: &Bucket| search.last < bucket.start && search.is_over(bucket);
        search.none() && !search.is_empty() && search.table.iter().any(behind)
    }),
    ("search: of an empty range", |search| {
        search.none() && search.is_empty()
    }),
    ("search: of an empty range in one over the bar", |search| {
        let holds = |bucket: &Bucket| bucket.holds(search.first) && bucket.holds(search.last);
        let around = |bucket: &Bucket| holds(bucket) && search.is_over(bucket);
        search.first == search.last + 1 && search.table.iter().any(around)
    }),
    // Where the bar is.
    ("search: bar at the hit's largest", |search| {
        search.of_hit(|hit| hit.largest == search.bar)
    }),
    (
        "search: bar one above the largest of one passed",
        |search| {
            let passed = |index| search.hit.is_none_or(|hit| index < hit);
            search.any_touched(|index, bucket| passed(index) && bucket.largest + 1 == search.bar)
        },
    ),
    ("search: bar at the lower end", |search| {
        search.refusal.is_none() && search.bar == i64::from(i32::MIN)
    }),
    ("search: bar at the upper end", |search| {
        search.refusal.is_none() && search.bar == i64::from(i32::MAX)
    }),
    ("search: hit with the bar at the upper end", |search| {
        search.of_hit(|_| search.bar == i64::from(i32::MAX))
    }),
    // Why it is refused; where the first tick alone is too far, the range is empty.
    ("search: unsound, and a tick too far", |search| {
        search.refusal == Some(UNSOUND) && search.too_far() != [false, false]
    }),
    ("search: first tick alone too far", |search| {
        search.refusal == Some(TICK) && search.too_far() == [true, false]
    }),
    ("search: last tick alone too far", |search| {
        search.refusal == Some(TICK) && search.too_far() == [false, true]
    }),
    ("search: both ticks too far", |search| {
        search.refusal == Some(TICK) && search.too_far() == [true, true]
    }),
    ("search: both ticks too far, of an empty range", |search| {
        search.refusal == Some(TICK) && search.too_far() == [true, true] && search.is_empty()
    }),
    ("search: last tick alone too far, at 4294967295", |search| {
        search.too_far() == [false, true] && search.last == u64::from(u32::MAX)
    }),
    (
        "search: first tick alone too far, at 4294967295",
        |search| search.too_far() == [true, false] && search.first == u64::from(u32::MAX),
    ),
    ("search: unsound, and an empty range", |search| {
        search.refusal == Some(UNSOUND) && search.too_far() == [false, false] && search.is_empty()
    }),
];

impl Search {
    pub fn new(
        session: &Session,
        command: &Command,
        answer: Result<Option<(u64, u64)>, Refusal>,
    ) -> Search {
        let [first, last] = [Name::First, Name::Last].map(|end| command.number(end) as u32);
        Search {
            late: session.state.kind == Kind::Late,
            table: answer.map_or(Vec::new(), |_| session.buckets()),
            first: u64::from(first),
            last: u64::from(last),
            bar: i64::from(command.number(Name::Bar) as i32),
            refusal: answer.err().map(|refusal| refusal.number),
            hit: answer.unwrap_or(None).map(|(index, _)| index as usize),
        }
    }

    /// An accepted search without a hit.
    fn none(&self) -> bool {
        self.refusal.is_none() && self.hit.is_none()
    }

    fn is_empty(&self) -> bool {
        self.first > self.last
    }

    fn is_over(&self, bucket: &Bucket) -> bool {
        bucket.largest >= self.bar
    }

    fn of_hit(&self, is: impl Fn(&Bucket) -> bool) -> bool {
        self.hit.is_some_and(|hit| is(&self.table[hit]))
    }

    /// Of the buckets that hold a tick of the range.
    fn any_touched(&self, is: impl Fn(usize, &Bucket) -> bool) -> bool {
        let touched = |bucket: &Bucket| bucket.start <= self.last && self.first < bucket.end();
        let mut buckets = self.table.iter().enumerate();
        !self.is_empty() && buckets.any(|(index, bucket)| touched(bucket) && is(index, bucket))
    }

    /// Of the two buckets before and after the missing ticks in which the range begins.
    fn in_gap(&self, is: impl Fn(&Bucket, &Bucket) -> bool) -> bool {
        let begins = |before: &Bucket, after: &Bucket| {
            before.end() <= self.first && self.first < after.start
        };
        let mut pairs = self.table.windows(2);
        !self.is_empty() && pairs.any(|pair| begins(&pair[0], &pair[1]) && is(&pair[0], &pair[1]))
    }

    fn too_far(&self) -> [bool; 2] {
        [self.first, self.last].map(|tick| tick >= TICKS)
    }
}
