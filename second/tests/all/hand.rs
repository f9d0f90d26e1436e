//! The traces worked by hand, H1 to H12, one by one, and two of odd base limits.

use crate::support::{bucket, Trace};
use second::calls::Size::{Base, Steps};
use second::calls::{self, Held, Refusal, RUNS, TAKEN};
use second::rule;

const H8_LINES: &str = "steps 1\nlate 2\n0 1\n1 4\n2 2\n3 9\n6 2\n5 3\n4 8\n";
const H8_OUTPUT: &str = "0 3 1 4 2\n3 2 8 9 8\n5 2 2 3 2\ntotal 7 3 2\n";

fn h8() -> Trace {
    Trace::late_of(
        Steps(1),
        2,
        &[(0, 1), (1, 4), (2, 2), (3, 9), (6, 2), (5, 3), (4, 8)],
    )
}

#[test]
fn h1_an_empty_trace() {
    let trace = Trace::in_order(Steps(32), &[]);
    assert_eq!(trace.buckets(), []);
    assert_eq!(rule::worst_error(&trace.buckets()), 0);
    let listed = second::listing::list(&b""[..]).unwrap();
    assert_eq!(listed, b"total 0 0 0\n");
}

#[test]
fn h2_three_joined_and_one_alone() {
    let trace = Trace::in_order(Steps(1), &[1, 4, 2, 9]);
    assert_eq!(trace.buckets(), [bucket(0, 3, 1, 4), bucket(3, 1, 9, 9)]);
}

#[test]
fn h3_of_equal_unions_the_lowest_start() {
    let trace = Trace::in_order(Steps(1), &[0, 1, 2]);
    assert_eq!(trace.buckets(), [bucket(0, 2, 0, 1), bucket(2, 1, 2, 2)]);
}

#[test]
fn h4_of_equal_readings_the_lowest_start() {
    let trace = Trace::in_order(Steps(1), &[5, 5, 5]);
    assert_eq!(trace.buckets(), [bucket(0, 2, 5, 5), bucket(2, 1, 5, 5)]);
}

#[test]
fn h5_two_steps() {
    let trace = Trace::in_order(Steps(2), &[0, 5, 9, 14, 18]);
    let buckets = trace.buckets();
    let borders: Vec<u64> = buckets.iter().skip(1).map(|next| next.start - 1).collect();
    assert_eq!(borders, [0, 2, 3]);
    assert_eq!(rule::worst_error(&buckets), 2);
}

#[test]
fn h6_a_level_below_zero_is_rounded_down() {
    let trace = Trace::in_order(Steps(1), &[-3, 0, 100]);
    let held = Held {
        level: -2,
        error: 2,
        least: -3,
        largest: 0,
    };
    assert_eq!(calls::lookup(trace.state, &trace.room, 1), Ok(held));
}

#[test]
fn h7_the_whole_range_in_one_bucket() {
    let trace = Trace::in_order(Steps(1), &[i32::MIN, i32::MAX, i32::MIN]);
    let held = Held {
        level: -1,
        error: 2_147_483_648,
        least: -2_147_483_648,
        largest: 2_147_483_647,
    };
    assert_eq!(calls::lookup(trace.state, &trace.room, 1), Ok(held));
}

#[test]
fn h8_the_late_trace_of_the_listing() {
    let trace = h8();
    let expected = [bucket(0, 3, 1, 4), bucket(3, 2, 8, 9), bucket(5, 2, 2, 3)];
    assert_eq!(trace.buckets(), expected);
    assert_eq!((trace.state.runs, trace.state.readings), (1, 7));
    assert_eq!((trace.tally.accepted, trace.tally.merges), (7, 4));
    let listed = second::listing::list(H8_LINES.as_bytes()).unwrap();
    assert_eq!(String::from_utf8(listed).unwrap(), H8_OUTPUT);
}

#[test]
fn h9_a_run_closes_without_a_merge() {
    let trace = Trace::late_of(Steps(1), 2, &[(0, 1), (2, 5), (1, 9)]);
    let expected = [bucket(0, 1, 1, 1), bucket(1, 1, 9, 9), bucket(2, 1, 5, 5)];
    assert_eq!(trace.buckets(), expected);
    assert_eq!(trace.tally.merges, 0);
}

#[test]
fn h10_a_taken_tick() {
    let mut trace = h8();
    let before = trace.clone();
    assert_eq!(trace.late(5, 7), Err(Refusal::of(TAKEN)));
    assert_eq!((trace.state, trace.room), (before.state, before.room));
    assert_eq!(trace.tally.refused, 1);
}

#[test]
fn h11_a_run_too_many() {
    let mut trace = h8();
    trace.late(8, 0).unwrap();
    assert_eq!((trace.state.used, trace.state.runs), (4, 2));
    let before = trace.clone();
    assert_eq!(trace.late(10, 0), Err(Refusal::of(RUNS)));
    assert_eq!((trace.state, trace.room), (before.state, before.room));
}

#[test]
fn h12_the_bytes_of_one_bucket() {
    let trace = Trace::late_of(Steps(1), 1, &[(3, -2)]);
    let expected = [
        3, 0, 0, 0, 1, 0, 0, 0, 254, 255, 255, 255, 254, 255, 255, 255,
    ];
    assert_eq!(trace.saved(), expected);
}

#[test]
fn one_step_in_all() {
    let trace = Trace::in_order(Base(1), &[-2, -6]);
    assert_eq!(trace.buckets(), [bucket(0, 2, -6, -2)]);
    let trace = Trace::late_of(Base(1), 2, &[(4, 1), (0, 5), (1, 7), (3, 2), (2, 6)]);
    assert_eq!(trace.buckets(), [bucket(0, 3, 5, 7), bucket(3, 2, 1, 2)]);
}

#[test]
fn three_steps_in_order_and_three_and_a_run_late() {
    let values = [7, 0, -7, 0, 3, 9];
    let trace = Trace::in_order(Base(3), &values);
    let expected = [bucket(0, 2, 0, 7), bucket(2, 1, -7, -7), bucket(3, 3, 0, 9)];
    assert_eq!(trace.buckets(), expected);
    let readings: Vec<(u32, i32)> = (0..).zip(values).collect();
    let trace = Trace::late_of(Base(3), 1, &readings);
    let expected = [
        bucket(0, 2, 0, 7),
        bucket(2, 1, -7, -7),
        bucket(3, 2, 0, 3),
        bucket(5, 1, 9, 9),
    ];
    assert_eq!(trace.buckets(), expected);
}
