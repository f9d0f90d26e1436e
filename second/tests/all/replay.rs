//! Replays of the logger's recordings: as the true ticks give them, worked by hand, of each short length, and refused.

use crate::support::{bucket, random_size, random_value, Trace, MARK};
use second::arrivals::{Arrivals, BURSTY};
use second::calls::Size::{self, Base, Steps};
use second::calls::{self, Refusal, Replayed, EDITION, GAPS, LENGTH, ROOM, SLOT, STEPS};
use second::logger::{self, Frame};
use second::made::NO_EDITIONS;
use second::random::Random;
use second::rule::{Bucket, Kind, TICKS};

/// A trace of a recording in the first edition, with the counts of its records.
fn replayed(size: Size, gaps: u64, recording: &[u8]) -> (Trace, u64, u64) {
    replayed_in(1, size, gaps, recording)
}

fn replayed_in(edition: u64, size: Size, gaps: u64, recording: &[u8]) -> (Trace, u64, u64) {
    let mut trace = Trace::open_in(edition, Kind::Late, size, gaps);
    trace.room.fill(MARK);
    let Replayed {
        state,
        accepted,
        refused,
    } = calls::replay(edition, size, gaps, recording, &mut trace.room).unwrap();
    trace.state = state;
    (trace, accepted, refused)
}

/// Of counters alone; the readings are the turns.
fn of_counters(size: Size, gaps: u64, counters: &[u16]) -> (Vec<Bucket>, u64, u64) {
    let frames: Vec<Frame> = (0..)
        .zip(counters)
        .map(|(value, &counter)| Frame { counter, value })
        .collect();
    let (trace, accepted, refused) = replayed(size, gaps, &logger::recording(&frames));
    (trace.buckets(), accepted, refused)
}

/// The ticks of the records that are accepted, each a bucket of its own.
fn ticks_of(counters: &[u16]) -> Vec<(u64, i64)> {
    let (buckets, accepted, refused) = of_counters(Base(40), 20, counters);
    assert_eq!((accepted, refused), (counters.len() as u64, 0));
    buckets
        .iter()
        .map(|bucket| (bucket.start, bucket.least))
        .collect()
}

/// True ticks, each within the range of the highest accepted so far, fed one by one and replayed from counters that are a constant away.
struct Truth {
    fed: Trace,
    first: i64,
    highest: i64,
    constant: i64,
    bytes: Vec<u8>,
}

impl Truth {
    fn new(size: Size, gaps: u64, first: i64, constant: i64) -> Truth {
        Truth {
            // By turns, as the constant is even or odd.
            fed: Trace::open_in(1 + constant.rem_euclid(2) as u64, Kind::Late, size, gaps),
            first,
            highest: first,
            constant,
            bytes: Vec::new(),
        }
    }

    fn feed(&mut self, tick: i64, value: i32) {
        assert!((-32_768..=32_767).contains(&(tick - self.highest)));
        let counter = (tick + self.constant).rem_euclid(65_536);
        self.bytes
            .extend([(counter % 256) as u8, (counter / 256) as u8]);
        self.bytes.extend(value.to_le_bytes());
        let shifted = u32::try_from(tick - self.first + 32_768).unwrap();
        if self.fed.late(shifted, value).is_ok() {
            self.highest = self.highest.max(tick);
        }
    }

    fn is_replayed(&self, size: Size, gaps: u64) {
        let edition = self.fed.state.edition;
        let (trace, accepted, refused) = replayed_in(edition, size, gaps, &self.bytes);
        assert_eq!(trace.state, self.fed.state);
        assert_eq!(trace.room, self.fed.room);
        let tally = self.fed.tally;
        assert_eq!(
            (accepted, refused),
            (tally.accepted.into(), tally.refused.into())
        );
    }
}

#[test]
fn a_replay_is_what_feeding_the_true_ticks_gives() {
    let mut random = Random::new(41);
    let mut refused = 0;
    for turn in 0..4_000 {
        let size = random_size(&mut random);
        let gaps = random.choice(&[1, 2, 3, 9, 30, 256]);
        let first = random.between(-1 << 40, 1 << 40);
        let constant = random.between(-1 << 20, 1 << 20);
        let mut truth = Truth::new(size, gaps, first, constant);
        truth.feed(first, random_value(&mut random));
        for _ in 0..random.below(60) {
            let far = match (turn + random.below(3)) % 4 {
                0 => random.choice(&[-32_768, -32_767, 32_766, 32_767]),
                1 => random.between(-32_768, 32_767),
                2 => random.choice(&[0, 1, 1, 2, -1]),
                _ => random.between(-8, 9),
            };
            truth.feed(truth.highest + far, random_value(&mut random));
        }
        truth.is_replayed(size, gaps);
        refused += truth.fed.tally.refused;
    }
    assert!(refused > 10_000, "{refused}");
}

#[test]
fn whatever_the_counters_begin_at() {
    for constant in 0..65_536 {
        let mut truth = Truth::new(Base(2), 2, 0, constant);
        let mut value = 0;
        for far in [0, 32_767, -32_768, 1, -2, 9, 1, 0] {
            value += 7;
            truth.feed(truth.highest + far, value);
        }
        assert_eq!((truth.fed.tally.accepted, truth.fed.tally.refused), (6, 2));
        truth.is_replayed(Base(2), 2);
        let alone = of_counters(Base(1), 1, &[constant as u16]);
        assert_eq!(alone, (vec![bucket(32_768, 1, 0, 0)], 1, 0));
    }
}

#[test]
fn a_long_recording_over_the_wrap() {
    let mut random = Random::new(42);
    let order = Arrivals::Delayed(BURSTY).order(100_000, &mut random);
    for gaps in [256, 12] {
        let first = i64::from(order[0]);
        let mut truth = Truth::new(Steps(8), gaps, first, 50_000);
        for &tick in &order {
            // What is refused leaves the highest behind: then it is out of range, and left out here.
            let tick = i64::from(tick);
            if (-32_768..=32_767).contains(&(tick - truth.highest)) {
                truth.feed(tick, random_value(&mut random));
            }
        }
        truth.is_replayed(Steps(8), gaps);
        let accepted = truth.fed.tally.accepted;
        assert_eq!(gaps == 256, accepted == 100_000, "{accepted}");
    }
}

/// So that a refused record changes nothing but its count.
#[test]
fn without_its_refused_records_a_recording_gives_the_same_trace() {
    let mut random = Random::new(43);
    for _ in 0..2_000 {
        let size = random_size(&mut random);
        let gaps = random.between(1, 5) as u64;
        let mut truth = Truth::new(size, gaps, 0, random.between(0, 65_535));
        let mut kept = Vec::new();
        for turn in 0..40 {
            let far = match (turn, random.below(4)) {
                (0, _) => 0,
                (_, 0) => random.between(-32_768, 32_767),
                _ => random.between(-5, 6),
            };
            let refused = truth.fed.tally.refused;
            let from = truth.bytes.len();
            truth.feed(truth.highest + far, random_value(&mut random));
            if truth.fed.tally.refused == refused {
                kept.extend_from_slice(&truth.bytes[from..]);
            }
        }
        let (whole, accepted, _) = replayed(size, gaps, &truth.bytes);
        assert_eq!(replayed(size, gaps, &kept), (whole, accepted, 0));
    }
}

#[test]
fn the_newest_is_the_highest_and_not_the_last() {
    assert_eq!(
        ticks_of(&[0, 32_767, 1, 65_534]),
        [(32_768, 0), (32_769, 2), (65_535, 1), (98_302, 3)]
    );
    // Below it by as much as there can be, and above it again.
    assert_eq!(
        ticks_of(&[7, 8, 32_776, 32_775]),
        [(1, 2), (32_768, 0), (32_769, 1), (65_536, 3)]
    );
}

#[test]
fn the_ends_of_the_range() {
    for first in [0_u16, 1, 7, 32_767, 32_768, 65_000, 65_535] {
        for (far, tick) in [
            (32_766, 65_534),
            (32_767, 65_535),
            (32_768, 0),
            (32_769, 1),
            (65_535, 32_767),
            (1, 32_769),
        ] {
            let mut expected = [(32_768, 0), (tick, 1)];
            expected.sort();
            let counters = [first, first.wrapping_add(far)];
            assert_eq!(ticks_of(&counters), expected);
        }
    }
}

#[test]
fn a_refused_record_is_not_the_newest() {
    // With two runs allowed the third record is refused; the last is 3 before the second, and would be 32,766 behind the third.
    let (buckets, accepted, refused) = of_counters(Base(4), 2, &[0, 2, 32_769, 65_535]);
    assert_eq!((accepted, refused), (3, 1));
    let starts: Vec<u64> = buckets.iter().map(|bucket| bucket.start).collect();
    assert_eq!(starts, [32_767, 32_768, 32_770]);
    // The same tick twice.
    let (buckets, accepted, refused) = of_counters(Base(1), 1, &[9, 9, 10, 9, 10]);
    assert_eq!((accepted, refused), (2, 3));
    assert_eq!(buckets, [bucket(32_768, 1, 0, 0), bucket(32_769, 1, 2, 2)]);
}

/// Sixteen million records, one a tick but for one that comes last: a tick behind the last of all is refused, and is not the newest.
#[test]
fn a_tick_above_the_last_is_refused() {
    let last = TICKS as i64 - 1;
    let mut bytes = Vec::new();
    let mut record = |tick: i64| {
        let counter = (tick % 65_536) as u16;
        bytes.extend(Frame { counter, value: 3 }.bytes());
    };
    (32_768..=last - 3).for_each(&mut record);
    for tick in [
        last - 1,
        last,
        last + 1,
        last + 32_767,
        last - 2,
        last - 32_768,
    ] {
        record(tick);
    }
    let (trace, accepted, refused) = replayed(Base(1), 2, &bytes);
    let run = TICKS - 32_768;
    assert_eq!((accepted, refused), (run, 3));
    assert_eq!((trace.state.readings, trace.state.runs), (run, 1));
    assert_eq!(trace.buckets().last().map(Bucket::end), Some(TICKS));
}

#[test]
fn the_bytes_of_a_record() {
    let frame = Frame {
        counter: 513,
        value: -2,
    };
    let bytes = [1, 2, 254, 255, 255, 255];
    assert_eq!(frame.bytes(), bytes);
    assert_eq!(Frame::of_bytes(&bytes), frame);
    let mut random = Random::new(44);
    for _ in 0..10_000 {
        let frame = Frame {
            counter: random.number() as u16,
            value: random_value(&mut random),
        };
        assert_eq!(Frame::of_bytes(&frame.bytes()), frame);
    }
    let (trace, ..) = replayed(Base(2), 1, &[1, 2, 254, 255, 255, 255, 2, 2, 0, 1, 0, 128]);
    let low = -2_147_483_648 + 256;
    let expected = [bucket(32_768, 1, -2, -2), bucket(32_769, 1, low, low)];
    assert_eq!(trace.buckets(), expected);
}

#[test]
fn a_difference_is_in_its_range_and_leads_from_one_counter_to_the_other() {
    for from in [0, 1, 2, 32_766, 32_767, 32_768, 32_769, 50_000, 65_535] {
        let mut met = vec![false; 65_536];
        for to in 0..=u16::MAX {
            let difference = logger::difference(from, to);
            assert!((-32_768..=32_767).contains(&difference));
            assert_eq!(from.wrapping_add(difference as u16), to);
            met[(difference + 32_768) as usize] = true;
        }
        assert!(met.iter().all(|&met| met));
    }
}

#[test]
fn recordings_of_0_to_13_bytes() {
    let bytes = [0, 0, 5, 0, 0, 0, 1, 0, 6, 0, 0, 0, 9];
    for length in 0..=13 {
        let mut room = vec![MARK; 6 * SLOT];
        let answer = calls::replay(2, Base(2), 2, &bytes[..length], &mut room);
        match length {
            0 | 6 | 12 => {
                let Replayed {
                    state,
                    accepted,
                    refused,
                } = answer.unwrap();
                let records = length as u64 / 6;
                assert_eq!((accepted, refused), (records, 0));
                assert_eq!((state.used, state.readings), (records, records));
                assert_eq!((state.kind, state.base, state.gaps), (Kind::Late, 2, 2));
                assert_eq!(state.edition, 2);
                let (needed, behind) = room.split_at(5 * SLOT);
                assert!(needed[length / 6 * SLOT..]
                    .iter()
                    .all(|&number| number == 0));
                assert_eq!(behind, [MARK; SLOT]);
            }
            _ => {
                assert_eq!(answer, Err(Refusal::of(LENGTH)));
                assert!(room.iter().all(|&number| number == MARK));
            }
        }
    }
}

#[test]
fn replay_refuses_16_1_2_3_7_in_order() {
    let number_in = |edition, size, gaps, numbers, bytes: usize| {
        let mut room = vec![MARK; numbers];
        let answer = calls::replay(edition, size, gaps, &vec![1; bytes], &mut room);
        if let Err(refusal) = answer {
            assert_eq!(refusal.place, 0);
            assert!(room.iter().all(|&number| number == MARK));
        }
        answer.err().map(|refusal| refusal.number)
    };
    for edition in NO_EDITIONS {
        assert_eq!(number_in(edition, Steps(0), 0, 0, 5), Some(EDITION));
        assert_eq!(number_in(edition, Base(1), 1, 3_076, 6), Some(EDITION));
    }
    let number = |size, gaps, numbers, bytes| {
        let [first, second] = [1, 2].map(|edition| number_in(edition, size, gaps, numbers, bytes));
        assert_eq!(first, second);
        first
    };
    for size in [
        Steps(0),
        Steps(257),
        Steps((1 << 63) + 1),
        Base(0),
        Base(513),
        Base((1 << 32) + 1),
        Base(u64::MAX),
    ] {
        assert_eq!(number(size, 0, 0, 5), Some(STEPS));
        assert_eq!(number(size, 1, 3_076, 6), Some(STEPS));
    }
    for size in [Steps(1), Base(1), Base(512)] {
        for gaps in [0, 257, (1 << 32) + 1, u64::MAX] {
            assert_eq!(number(size, gaps, 0, 5), Some(GAPS));
            assert_eq!(number(size, gaps, 3_076, 6), Some(GAPS));
        }
    }
    for (size, gaps, slots) in [
        (Steps(1), 1, 4),
        (Base(1), 1, 3),
        (Base(511), 256, 768),
        (Steps(256), 256, 769),
        (Base(512), 256, 769),
    ] {
        assert_eq!(number(size, gaps, slots * 4 - 1, 5), Some(ROOM));
        assert_eq!(number(size, gaps, slots * 4 - 1, 6), Some(ROOM));
        assert_eq!(number(size, gaps, slots * 4, 5), Some(LENGTH));
        assert_eq!(number(size, gaps, slots * 4, 6), None);
    }
}

#[test]
fn a_replayed_trace_goes_on_and_is_saved_and_loaded_as_any_other() {
    let frames = [0, 1, 3, 2, 5].map(|counter| Frame {
        counter,
        value: i32::from(counter) * 10,
    });
    let (mut trace, ..) = replayed(Steps(2), 2, &logger::recording(&frames));
    trace.late(32_772, -4).unwrap();
    trace.late(32_767, 3).unwrap();
    let readings = [
        (32_768, 0),
        (32_769, 10),
        (32_771, 30),
        (32_770, 20),
        (32_773, 50),
        (32_772, -4),
        (32_767, 3),
    ];
    let fed = Trace::late_of(Steps(2), 2, &readings);
    assert_eq!((trace.state, &trace.room), (fed.state, &fed.room));
    let loaded = trace.reloaded();
    assert_eq!((loaded.state, loaded.room), (trace.state, trace.room));
}
