//! One number added to all readings: the same answers, every level, least and largest moved by that number, the errors as they were; and the same first
//! bucket over a bar that is moved too.

use crate::support::{random_size, Trace};
use second::calls::{self, Held};
use second::random::Random;
use second::rule::{Bucket, Kind};

const LOWEST: i64 = i32::MIN as i64;
const HIGHEST: i64 = i32::MAX as i64;

/// A reading that fits 32 bits with the offset and without it; mostly near others, so that sums are odd and even, below zero and above.
fn fitting_value(random: &mut Random, offset: i64) -> i32 {
    let [low, high] = [LOWEST.max(LOWEST - offset), HIGHEST.min(HIGHEST - offset)];
    let near = (-offset / 2).clamp(low, high);
    let value = match random.below(4) {
        0 => random.between(low, high),
        1 => random.choice(&[low, high]),
        _ => random.between((near - 9).max(low), (near + 9).min(high)),
    };
    value as i32
}

fn moved(bucket: &Bucket, offset: i64) -> Bucket {
    Bucket {
        least: bucket.least + offset,
        largest: bucket.largest + offset,
        ..*bucket
    }
}

fn feed(trace: &mut Trace, tick: u32, value: i32) -> Result<(), calls::Refusal> {
    match trace.state.kind {
        Kind::InOrder => trace.next(value),
        Kind::Late => trace.late(tick, value),
    }
}

#[test]
fn an_offset_moves_every_level() {
    let mut random = Random::new(41);
    // Odd sums that are below zero in one trace and above in the other: cut toward zero, their levels would be one off.
    let mut moved_across = 0;
    let [mut refused, mut hits] = [0; 2];
    for number in 0..4_000 {
        let offset = match number % 4 {
            0 => 1_001,
            1 => random.choice(&[-4_294_967_295, -1, 1, 4_294_967_295]),
            2 => random.between(-4_294_967_295, 4_294_967_295),
            _ => random.between(-20, 20),
        };
        let kind = random.choice(&[Kind::InOrder, Kind::Late]);
        let size = random_size(&mut random);
        let gaps = random.between(1, 4) as u64;
        let gaps = if kind == Kind::Late { gaps } else { 0 };
        let edition = random.choice(&[1, 2]);
        let mut trace = Trace::open_in(edition, kind, size, gaps);
        let mut other = Trace::open_in(edition, kind, size, gaps);
        for _ in 0..random.below(40) {
            let tick = random.below(40) as u32;
            let value = fitting_value(&mut random, offset);
            let raised = (i64::from(value) + offset) as i32;
            let answer = feed(&mut trace, tick, value);
            assert_eq!(feed(&mut other, tick, raised), answer);
            refused += u64::from(answer.is_err());
            assert_eq!((trace.state, trace.tally), (other.state, other.tally));
            let asked = random.below(42) as u32;
            let held = calls::lookup(trace.state, &trace.room, asked);
            let expected = held.map(|held| Held {
                level: held.level + offset,
                least: held.least + offset,
                largest: held.largest + offset,
                ..held
            });
            assert_eq!(calls::lookup(other.state, &other.room, asked), expected);
            let ends = [(); 2].map(|()| random.below(42) as u32);
            let bar = match random.below(3) {
                0 => fitting_value(&mut random, offset),
                _ => held.map_or(value, |held| held.largest as i32),
            };
            let raised_bar = (i64::from(bar) + offset) as i32;
            let hit = calls::first_over(trace.state, &trace.room, ends[0], ends[1], bar);
            let moved_hit =
                calls::first_over(other.state, &other.room, ends[0], ends[1], raised_bar);
            assert_eq!(moved_hit, hit);
            hits += u64::from(hit.is_ok_and(|hit| hit.is_some()));
            match random.below(16) {
                0 => trace = trace.reloaded(),
                1 => other = other.reloaded(),
                _ => {}
            }
        }
        let buckets = trace.buckets();
        let expected: Vec<Bucket> = buckets.iter().map(|bucket| moved(bucket, offset)).collect();
        assert_eq!(other.buckets(), expected);
        let worst = calls::worst(trace.state, &trace.room);
        assert_eq!(calls::worst(other.state, &other.room), worst);
        let across = |bucket: &&Bucket| {
            let sum = bucket.least + bucket.largest;
            sum % 2 != 0 && (sum < 0) != (sum + 2 * offset < 0)
        };
        moved_across += buckets.iter().filter(across).count();
    }
    assert!(
        moved_across > 500,
        "{moved_across} odd sums move across zero"
    );
    assert!(refused > 5_000, "{refused} readings are refused");
    assert!(hits > 5_000, "{hits} searches have a hit");
}
