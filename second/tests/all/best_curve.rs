//! The promise on error: no curve of at most (C + 1) / 2 flat steps, rounded down, comes closer than the picture does, in either edition, and where the
//! edition changes between readings.

use crate::support::{random_value, Trace};
use second::arrivals::{self, PERTURBATION};
use second::calls::{
    self, Refusal, Size::Base, State, MOST_BASE, MOST_GAPS, RUNS, SLOT, TAKEN, UNSOUND,
};
use second::random::Random;
use second::rule::{self, worst_error, Bucket, Edition, Kind, EDITIONS};
use std::collections::BTreeMap;

/// Of each base limit as many; half of them are odd.
const TABLES_OF_A_KIND: u64 = 34_000;
const BASES: u64 = 8;
const READINGS: u64 = 24;
/// Tables of odd C in which something was merged, of each kind and in each edition.
const ODD_AND_MERGED: u64 = 10_000;
/// Tables that differ between the editions at their end, of each kind.
const DIFFER: u64 = 3_000;

fn promised(base: u64) -> u64 {
    base.div_ceil(2)
}

/// The least worst error of a curve of at most this many flat steps at whole levels.
fn best_error(values: &[i64], steps: u64) -> i64 {
    // Nothing is fitted by no step but nothing itself.
    let mut best = vec![i64::MAX; values.len() + 1];
    best[0] = 0;
    for _ in 0..steps {
        let fewer = best.clone();
        for (end, best) in best.iter_mut().enumerate() {
            let (mut least, mut largest) = (i64::MAX, i64::MIN);
            for start in (0..end).rev() {
                least = least.min(values[start]);
                largest = largest.max(values[start]);
                let error = (largest - least + 1) / 2;
                *best = fewer[start].max(error).min(*best);
            }
        }
    }
    best[values.len()]
}

/// Whether some curve of at most this many flat steps has a lesser worst error: each step as long as it can be.
fn is_beaten(values: &[i64], steps: u64, worst: i64) -> bool {
    let spread = 2 * (worst - 1);
    let mut needed = 0;
    let (mut least, mut largest) = (i64::MAX, i64::MIN);
    for &value in values {
        (least, largest) = (least.min(value), largest.max(value));
        if needed == 0 || largest - least > spread {
            needed += 1;
            (least, largest) = (value, value);
        }
    }
    worst > 0 && needed <= steps
}

/// One trace in each edition, and one that changes between them, all fed the same readings.
struct Traces([Trace; 3]);

impl Traces {
    fn open(kind: Kind, base: u64, gaps: u64) -> Traces {
        Traces([1, 2, 1].map(|edition| Trace::open_in(edition, kind, Base(base), gaps)))
    }

    /// Now and then they are saved and loaded before they are looked at.
    fn accepted(&mut self, accepted: &BTreeMap<u32, i64>, random: &mut Random) {
        if random.below(10) == 0 {
            self.0 = std::array::from_fn(|which| self.0[which].reloaded());
        }
        if random.below(4) == 0 {
            let [_, _, changing] = &mut self.0;
            *changing = changing.reloaded_in(3 - changing.state.edition);
        }
        for trace in &self.0 {
            check(trace, accepted);
        }
    }

    fn merged(&self) -> bool {
        let merges = |trace: &Trace| trace.tally.merges;
        let [first, second, changing] = &self.0;
        assert_eq!(merges(first), merges(second));
        assert_eq!(merges(first), merges(changing));
        merges(first) > 0
    }

    fn differ(&self) -> bool {
        self.0[0].buckets() != self.0[1].buckets()
    }
}

/// Of few levels in every second eight tables, so that spreads are equal.
fn any_value(number: u64, random: &mut Random) -> i32 {
    match number / BASES % 2 {
        0 => random_value(random),
        _ => random.between(-2, 2) as i32,
    }
}

#[test]
fn in_order() {
    let mut random = Random::new(41);
    let [mut odd, mut differ] = [0; 2];
    // Those that one step more would beat, by edition, of even C and of odd.
    let mut beaten = [[0; 2]; 2];
    for number in 0..TABLES_OF_A_KIND {
        let base = 1 + number % BASES;
        let mut traces = Traces::open(Kind::InOrder, base, 0);
        let mut accepted = BTreeMap::new();
        for tick in 0..random.below(READINGS) as u32 {
            let value = any_value(number, &mut random);
            accepted.insert(tick, i64::from(value));
            for trace in &mut traces.0 {
                trace.next(value).unwrap();
            }
            traces.accepted(&accepted, &mut random);
        }
        odd += u64::from(base % 2 == 1 && traces.merged());
        differ += u64::from(traces.differ());
        let values: Vec<i64> = accepted.values().copied().collect();
        for (trace, beaten) in traces.0.iter().zip(&mut beaten) {
            let worst = worst_error(&trace.buckets());
            beaten[base as usize % 2] += u64::from(is_beaten(&values, promised(base) + 1, worst));
        }
    }
    assert!(odd >= ODD_AND_MERGED, "{odd}");
    assert!(differ >= DIFFER, "{differ}");
    // Seldom of even C, where a step more would need one bucket more; of odd C it would need two.
    for [even, odd] in beaten {
        assert!(even >= 5 && odd >= 1_000, "{beaten:?}");
    }
}

#[test]
fn late() {
    let mut random = Random::new(42);
    let [mut odd, mut differ] = [0; 2];
    for number in 0..TABLES_OF_A_KIND {
        let base = 1 + number % BASES;
        let gaps = random.between(1, 5) as u64;
        let mut traces = Traces::open(Kind::Late, base, gaps);
        let mut accepted = BTreeMap::new();
        let ticks = random.between(base as i64, 30) as u64;
        for _ in 0..random.between(1, 3 * READINGS as i64) {
            let (tick, value) = (random.below(ticks) as u32, any_value(number, &mut random));
            let mut with = accepted.clone();
            let expected = if with.insert(tick, i64::from(value)).is_some() {
                Err(Refusal::of(TAKEN))
            } else if runs_of(&with) > gaps {
                Err(Refusal::of(RUNS))
            } else {
                accepted = with;
                Ok(())
            };
            for trace in &mut traces.0 {
                let before = trace.clone();
                assert_eq!(trace.late(tick, value), expected);
                if expected.is_err() {
                    assert_eq!((trace.state, &trace.room), (before.state, &before.room));
                }
            }
            if expected.is_ok() {
                traces.accepted(&accepted, &mut random);
            }
        }
        odd += u64::from(base % 2 == 1 && traces.merged());
        differ += u64::from(traces.differ());
    }
    assert!(odd >= ODD_AND_MERGED, "{odd}");
    assert!(differ >= DIFFER, "{differ}");
}

#[test]
fn of_every_base_limit() {
    let mut random = Random::new(43);
    for base in 1..=MOST_BASE {
        let readings = base as usize + random.between(1, 60) as usize;
        let values: Vec<i32> = (0..readings).map(|_| random_value(&mut random)).collect();
        let delays = PERTURBATION.delays(readings, &mut random);
        let order = arrivals::order(&delays);
        let wide: Vec<i64> = values.iter().copied().map(i64::from).collect();
        for edition in [1, 2] {
            let in_order = Trace::in_order_in(edition, Base(base), &values);
            let mut late = Trace::open_in(edition, Kind::Late, Base(base), MOST_GAPS);
            for &tick in &order {
                late.late(tick, values[tick as usize]).unwrap();
            }
            for trace in [in_order, late] {
                assert_eq!((trace.state.base, trace.state.edition), (base, edition));
                is_full(&trace);
                let worst = worst_error(&trace.buckets());
                assert!(!is_beaten(&wide, promised(base), worst), "{base}");
            }
        }
    }
}

/// All ticks are there, so one run: as many buckets as the limit allows, and one more is too many.
fn is_full(trace: &Trace) {
    let State {
        kind,
        base,
        used,
        readings,
        ..
    } = trace.state;
    assert_eq!(used, base + u64::from(kind == Kind::Late));
    let (mut state, mut room) = (trace.state, trace.room.clone());
    room[used as usize * SLOT..][..SLOT].copy_from_slice(&[readings as i64, 1, 0, 0]);
    (state.used, state.readings) = (used + 1, readings + 1);
    assert_eq!(calls::worst(state, &room), Err(Refusal::of(UNSOUND)));
}

#[test]
fn in_order_one_step_more_is_not_promised() {
    for (base, values, errors) in [
        (1, &[-2, -6][..], (2, 2, 0)),
        (2, &[8, 1, -3, -9], (5, 9, 4)),
        (3, &[7, 0, -7, 0, 3, 9], (5, 7, 4)),
    ] {
        let trace = Trace::in_order(Base(base), values);
        let wide: Vec<i64> = values.iter().map(|&value| i64::from(value)).collect();
        let ours = worst_error(&trace.buckets());
        let steps = promised(base);
        let [best, better] = [steps, steps + 1].map(|steps| best_error(&wide, steps));
        assert_eq!((ours, best, better), errors, "C = {base}");
    }
}

/// The table of these readings by the rule, with another limit.
fn table_of(
    edition: Edition,
    readings: &BTreeMap<u32, i64>,
    order: &[u32],
    limit: impl Fn(u64) -> u64,
) -> Vec<Bucket> {
    let mut table = Vec::new();
    for tick in order {
        rule::insertion(&mut table, u64::from(*tick), readings[tick]);
        while table.len() as u64 > limit(rule::runs(&table)) {
            let Some(first) = rule::cheapest_neighbours(edition, &table) else {
                break;
            };
            rule::merge(&mut table, first);
        }
    }
    table
}

#[test]
fn late_a_limit_without_the_runs_breaks_the_promise() {
    let mut random = Random::new(44);
    // Tables with a worse error than the best curve, of even C and of odd, in both editions.
    let mut broken = [0; 2];
    for number in 0..TABLES_OF_A_KIND {
        let base = 1 + number % BASES;
        let mut ticks = arrivals::shuffled(READINGS as usize, &mut random);
        ticks.truncate(random.between(1, READINGS as i64) as usize);
        let mut reading = |&tick: &u32| (tick, i64::from(random_value(&mut random)));
        let readings: BTreeMap<u32, i64> = ticks.iter().map(&mut reading).collect();
        let values: Vec<i64> = readings.values().copied().collect();
        let edition = EDITIONS[number as usize / BASES as usize % 2];
        let worst =
            |limit: &dyn Fn(u64) -> u64| worst_error(&table_of(edition, &readings, &ticks, limit));
        let right = worst(&|runs| base + runs);
        assert!(!is_beaten(&values, promised(base), right));
        let wrong = worst(&|_| base);
        broken[base as usize % 2] += u64::from(is_beaten(&values, promised(base), wrong));
    }
    assert!(broken.iter().all(|&tables| tables >= 100), "{broken:?}");
}

fn runs_of(accepted: &BTreeMap<u32, i64>) -> u64 {
    let is_first = |tick: &&u32| **tick == 0 || !accepted.contains_key(&(**tick - 1));
    accepted.keys().filter(is_first).count() as u64
}

fn check(trace: &Trace, accepted: &BTreeMap<u32, i64>) {
    let state = trace.state;
    let buckets = trace.buckets();
    let runs = runs_of(accepted);
    let limit = match state.kind {
        Kind::InOrder => state.base,
        Kind::Late => state.base + runs,
    };
    assert!(buckets.len() as u64 <= limit);
    assert_eq!(state.runs, runs);

    let mut covered = Vec::new();
    for bucket in &buckets {
        let ticks = bucket.start as u32..bucket.end() as u32;
        let values: Vec<i64> = ticks.clone().map(|tick| accepted[&tick]).collect();
        assert_eq!(values.iter().min(), Some(&bucket.least));
        assert_eq!(values.iter().max(), Some(&bucket.largest));
        for value in values {
            assert!((value - bucket.level()).abs() <= bucket.error());
        }
        covered.extend(ticks);
    }
    assert!(covered.iter().eq(accepted.keys()));

    let values: Vec<i64> = accepted.values().copied().collect();
    let (worst, steps) = (worst_error(&buckets), promised(state.base));
    assert!(worst <= best_error(&values, steps));
    assert!(!is_beaten(&values, steps, worst));

    assert_eq!(trace.tally.accepted as usize, accepted.len());
    assert_eq!(trace.tally.merges as usize, accepted.len() - buckets.len());
}
