//! Saved and loaded a trace is the same trace, and what loads saves to the same bytes.

use crate::support::{marked_room, random_size, random_trace, random_value, Trace};
use second::calls::Size::{self, Base, Steps};
use second::calls::{self, State, RECORD_BYTES};
use second::random::Random;
use second::rule::{Kind, TICKS};

#[test]
fn a_saved_trace_loads_as_itself_and_goes_on_alike() {
    let mut random = Random::new(21);
    for _ in 0..5_000 {
        let mut kept = random_trace(&mut random);
        let mut loaded = kept.reloaded();
        assert_eq!(loaded, kept);
        for _ in 0..10 {
            let value = random_value(&mut random);
            let tick = random.below(45) as u32;
            let answers = match kept.state.kind {
                Kind::InOrder => (kept.next(value), loaded.next(value)),
                Kind::Late => (kept.late(tick, value), loaded.late(tick, value)),
            };
            assert_eq!(answers.0, answers.1);
            assert_eq!(loaded, kept);
        }
    }
}

#[test]
fn bytes_that_load_save_to_the_same_bytes() {
    let mut random = Random::new(22);
    let mut loads = 0;
    for _ in 0..20_000 {
        let kind = random.choice(&[Kind::InOrder, Kind::Late]);
        let size = random_size(&mut random);
        let gaps = random.between(1, 4) as u64;
        let bytes = random_records(&mut random, kind);
        let mut room = marked_room(Kind::Late, size, gaps);
        let edition = random.choice(&[1, 2]);
        let Ok(state) = calls::load(edition, kind, size, gaps, &bytes, &mut room) else {
            continue;
        };
        loads += 1;
        let mut saved = vec![0; bytes.len()];
        let records = (bytes.len() / RECORD_BYTES) as u64;
        assert_eq!(calls::save(state, &room, &mut saved), Ok(records));
        assert_eq!(saved, bytes);
    }
    assert!(loads > 5_000, "too few of the random files load: {loads}");
}

/// The trace's file loaded by this size into a room that is long enough for one step more.
fn loaded_by(trace: &Trace, size: Size) -> Result<Trace, calls::Refusal> {
    let state = trace.state;
    let mut room = marked_room(state.kind, Base(state.base + 1), state.gaps);
    let State {
        edition,
        kind,
        gaps,
        ..
    } = trace.state;
    let state = calls::load(edition, kind, size, gaps, &trace.saved(), &mut room)?;
    let tally = trace.tally;
    Ok(Trace { state, room, tally })
}

#[test]
fn b_is_c_of_2b_and_one_more_or_less_is_not() {
    let mut random = Random::new(23);
    let (mut even, mut refused) = (0, 0);
    for _ in 0..5_000 {
        let trace = random_trace(&mut random);
        let base = trace.state.base;
        let by_base = loaded_by(&trace, Base(base)).unwrap();
        assert_eq!(by_base.state, trace.state);
        if base % 2 == 0 {
            assert_eq!(loaded_by(&trace, Steps(base / 2)), Ok(by_base));
            even += 1;
        }
        let more = loaded_by(&trace, Base(base + 1)).unwrap();
        assert_eq!(more.state.base, base + 1);
        assert_eq!(more.buckets(), trace.buckets());
        let full = match trace.state.kind {
            Kind::InOrder => trace.state.used == base,
            Kind::Late => trace.state.used == base + trace.state.runs,
        };
        let less = loaded_by(&trace, Base(base - 1)).map(|less| less.state.base);
        let expected = match (base, full) {
            (1, _) => Err(calls::Refusal::of(calls::STEPS)),
            (_, true) => Err(calls::Refusal::of(calls::OVERFULL)),
            _ => Ok(base - 1),
        };
        assert_eq!(less, expected);
        refused += u64::from(less.is_err());
    }
    assert!(even > 2_000 && refused > 2_000, "{even} {refused}");
}

#[test]
fn in_order_a_given_k_is_kept_as_0() {
    let trace = Trace::in_order(Steps(2), &[1, 2, 3, 4, 5, 6]);
    for gaps in [0, 5, 300, u64::MAX] {
        let mut room = marked_room(Kind::InOrder, Steps(2), 0);
        let opened = calls::open(1, Kind::InOrder, Steps(2), gaps, &mut room).unwrap();
        assert_eq!(opened.gaps, 0);
        let saved = trace.saved();
        let loaded = calls::load(1, Kind::InOrder, Base(4), gaps, &saved, &mut room).unwrap();
        assert_eq!((loaded, room), (trace.state, trace.room.clone()));
    }
}

/// Records that mostly keep the rules, some up to the last tick.
fn random_records(random: &mut Random, kind: Kind) -> Vec<u8> {
    let mut bytes = Vec::new();
    let mut end = 0;
    for _ in 0..random.below(10) {
        let missing = match kind {
            Kind::InOrder => 0,
            Kind::Late => random.choice(&[0, 0, 0, 1, 70_000]),
        };
        let start = end + missing;
        let count = match random.below(12) {
            0 => TICKS.saturating_sub(start),
            1 => random.below(100_000),
            _ => random.between(1, 3) as u64,
        };
        let mut ends = [random_value(random), random_value(random)];
        ends.sort();
        if count == 1 {
            ends[1] = ends[0];
        }
        bytes.extend((start as u32).to_le_bytes());
        bytes.extend((count as u32).to_le_bytes());
        bytes.extend(ends[0].to_le_bytes());
        bytes.extend(ends[1].to_le_bytes());
        end = start + count;
    }
    bytes
}
