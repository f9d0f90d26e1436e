//! Refusals: each in its order, and none changes anything but the tally's count of refused.

use crate::sound::is_sound;
use crate::support::{
    bucket, bytes_of, loaded, random_trace, random_value, Trace, MARK, MARK_BYTE, MARK_RECORD,
};
use second::calls::Size::{Base, Steps};
use second::calls::{self, *};
use second::made::NO_EDITIONS;
use second::picture;
use second::random::Random;
use second::rule::{Bucket, Kind, TICKS};

const FULL: &[(u32, u32, i32, i32)] = &[(0, TICKS as u32, 0, 5)];

/// In the first edition; in the second it is the same but for the edition.
fn load_answer(kind: Kind, size: Size, gaps: u64, bytes: &[u8]) -> Result<State, Refusal> {
    let [first, second] = [1, 2].map(|edition| {
        let mut room = vec![MARK; 769 * SLOT];
        let answer = calls::load(edition, kind, size, gaps, bytes, &mut room);
        if answer.is_err() {
            assert!(room.iter().all(|&number| number == MARK));
        }
        answer
    });
    let moved = first.map(|state| State {
        edition: 2,
        ..state
    });
    assert_eq!(second, moved);
    first
}

#[test]
fn open_refuses_16_1_2_3_in_order() {
    let number_in = |edition, kind, size, gaps, numbers| {
        let mut room = vec![MARK; numbers];
        let answer = calls::open(edition, kind, size, gaps, &mut room);
        if answer.is_err() {
            assert!(room.iter().all(|&number| number == MARK));
        }
        answer.err().map(|refusal| refusal.number)
    };
    for edition in NO_EDITIONS {
        for kind in [Kind::InOrder, Kind::Late] {
            assert_eq!(number_in(edition, kind, Base(0), 0, 0), Some(EDITION));
            assert_eq!(number_in(edition, kind, Base(1), 0, 0), Some(EDITION));
            assert_eq!(number_in(edition, kind, Base(1), 1, 0), Some(EDITION));
            assert_eq!(number_in(edition, kind, Base(1), 1, 99), Some(EDITION));
        }
    }
    let number = |kind, size, gaps, numbers| {
        let [first, second] = [1, 2].map(|edition| number_in(edition, kind, size, gaps, numbers));
        assert_eq!(first, second);
        first
    };
    let wide = [1 << 32, (1 << 63) + 1, (1 << 63) + 32, u64::MAX];
    let steps = [0, 257, (1 << 31) + 1].into_iter().chain(wide).map(Steps);
    let bases = [0, 513, (1 << 32) + 1].into_iter().chain(wide).map(Base);
    for size in steps.chain(bases) {
        assert_eq!(number(Kind::Late, size, 0, 0), Some(STEPS));
        assert_eq!(number(Kind::InOrder, size, 0, 3_076), Some(STEPS));
    }
    for gaps in [0, 257, u64::MAX] {
        for size in [Steps(1), Base(1)] {
            assert_eq!(number(Kind::Late, size, gaps, 0), Some(GAPS));
            assert_eq!(number(Kind::InOrder, size, gaps, 0), Some(ROOM));
        }
    }
    for (kind, size, gaps, slots) in [
        (Kind::InOrder, Steps(1), 9, 3),
        (Kind::InOrder, Base(1), 9, 2),
        (Kind::InOrder, Base(63), 9, 64),
        (Kind::Late, Base(1), 1, 3),
        (Kind::Late, Base(511), 256, 768),
        (Kind::Late, Steps(256), 256, 769),
        (Kind::Late, Base(512), 256, 769),
    ] {
        assert_eq!(number(kind, size, gaps, slots * 4 - 1), Some(ROOM));
        assert_eq!(number(kind, size, gaps, slots * 4), None);
    }
}

#[test]
fn load_refuses_16_1_2_3_7_8_9_10_in_order() {
    let odd = [0; 15];
    let mut short = [MARK; 4];
    let late = Kind::Late;
    for (size, gaps, number) in [
        (Steps(0), 0, STEPS),
        (Base(513), 0, STEPS),
        (Base(1), 0, GAPS),
        (Base(1), 1, ROOM),
    ] {
        let answer = calls::load(2, late, size, gaps, &odd, &mut short);
        assert_eq!(answer, Err(Refusal::of(number)));
        for edition in NO_EDITIONS {
            let answer = calls::load(edition, late, size, gaps, &odd, &mut short);
            assert_eq!(answer, Err(Refusal::of(EDITION)));
        }
    }
    assert_eq!(
        load_answer(late, Steps(1), 1, &odd),
        Err(Refusal::of(LENGTH))
    );
    // Five records in three runs for C = 2 and K = 2: faulty, then too many runs, then too many.
    let mut records = [
        (0, 1, 3, 3),
        (1, 1, 3, 3),
        (4, 1, 3, 3),
        (5, 1, 3, 3),
        (8, 2, 4, 3),
    ];
    let fault = Refusal {
        number: RECORD,
        place: 4,
    };
    assert_eq!(
        load_answer(late, Base(2), 2, &bytes_of(&records)),
        Err(fault)
    );
    records[4] = (8, 2, 3, 4);
    let answer = load_answer(late, Base(2), 2, &bytes_of(&records));
    assert_eq!(answer, Err(Refusal::of(RUNS)));
    records[4] = (6, 2, 3, 4);
    let answer = load_answer(late, Base(2), 2, &bytes_of(&records));
    assert_eq!(answer, Err(Refusal::of(OVERFULL)));
    let answer = load_answer(late, Base(3), 2, &bytes_of(&records));
    assert_eq!(answer.map(|state| state.runs), Ok(2));
    let in_order = bytes_of(&[(0, 1, 3, 3), (1, 1, 3, 3), (2, 1, 3, 3)]);
    let answer = |base| load_answer(Kind::InOrder, Base(base), 0, &in_order);
    assert_eq!(answer(2), Err(Refusal::of(OVERFULL)));
    assert_eq!(answer(3).map(|state| state.used), Ok(3));
}

#[test]
fn each_record_rule_is_refused_at_its_index() {
    let last = TICKS as u32 - 1;
    let faults = [
        (Kind::Late, (2, 0, 0, 0)),
        (Kind::Late, (last, 2, 0, 0)),
        (Kind::Late, (u32::MAX, u32::MAX, 0, 0)),
        (Kind::Late, (2, 3, 1, 0)),
        (Kind::Late, (2, 1, 0, 1)),
        (Kind::Late, (1, 1, 0, 0)),
        (Kind::InOrder, (1, 1, 0, 0)),
        (Kind::InOrder, (3, 1, 0, 0)),
    ];
    for (kind, fault) in faults {
        let bytes = bytes_of(&[(0, 2, -1, 1), fault, (2, 0, 0, 0)]);
        let refusal = Refusal {
            number: RECORD,
            place: 1,
        };
        assert_eq!(load_answer(kind, Steps(9), 9, &bytes), Err(refusal));
    }
    let answer = load_answer(Kind::InOrder, Steps(9), 9, &bytes_of(&[(1, 1, 0, 0)]));
    assert_eq!(answer.unwrap_err().number, RECORD);
    let answer = load_answer(Kind::Late, Steps(9), 9, &bytes_of(&[(last, 1, 0, 0)]));
    assert_eq!(answer.map(|state| state.readings), Ok(1));
}

#[test]
fn readings_refuse_4_5_6_11_9_in_order() {
    let number = |answer: Result<State, Refusal>| answer.map_err(|refusal| refusal.number);
    let beyond = TICKS as u32;
    let mut late = loaded(Kind::Late, Steps(1), 1, FULL);
    let mut unsound = late.state;
    unsound.readings += 1;
    let room = &mut late.room;
    assert_eq!(number(calls::next(unsound, room, 0)), Err(UNSOUND));
    assert_eq!(number(calls::next(late.state, room, 0)), Err(KIND));
    for tick in [beyond, u32::MAX] {
        assert_eq!(number(calls::late(late.state, room, tick, 0)), Err(TICK));
    }
    assert_eq!(
        number(calls::late(late.state, room, beyond - 1, 0)),
        Err(TAKEN)
    );
    let mut in_order = loaded(Kind::InOrder, Steps(1), 0, FULL);
    let room = &mut in_order.room;
    assert_eq!(
        number(calls::late(in_order.state, room, beyond, 0)),
        Err(KIND)
    );
    assert_eq!(number(calls::next(in_order.state, room, 0)), Err(TICK));
    // At the most runs a taken tick is still told apart from a run too many.
    let mut most_runs = Trace::late_of(Steps(1), 2, &[(0, 1), (5, 2)]);
    assert_eq!(most_runs.late(5, 3), Err(Refusal::of(TAKEN)));
    assert_eq!(most_runs.late(9, 3), Err(Refusal::of(RUNS)));
    assert_eq!(most_runs.late(beyond, 3), Err(Refusal::of(TICK)));
    most_runs.late(6, 3).unwrap();
}

#[test]
fn the_last_tick_is_taken_and_none_after_it() {
    let mut trace = loaded(Kind::InOrder, Steps(1), 0, &[(0, TICKS as u32 - 1, 0, 5)]);
    trace.next(9).unwrap();
    assert_eq!(trace.state.readings, TICKS);
    assert_eq!(trace.next(9), Err(Refusal::of(TICK)));
}

#[test]
fn lookup_row_and_save_refuse_in_order() {
    let trace = Trace::late_of(Steps(1), 2, &[(0, 1), (5, 2)]);
    let mut unsound = trace.state;
    unsound.runs = 1;
    let number = |state, tick| {
        let answer = calls::lookup(state, &trace.room, tick);
        answer.map(|held| held.level).map_err(|r| r.number)
    };
    assert_eq!(number(unsound, u32::MAX), Err(UNSOUND));
    assert_eq!(number(trace.state, TICKS as u32), Err(TICK));
    assert_eq!(number(trace.state, TICKS as u32 - 1), Err(ABSENT));
    assert_eq!(number(trace.state, 4), Err(ABSENT));
    assert_eq!(number(trace.state, 5), Ok(2));
    for (state, refusal) in [(unsound, UNSOUND), (trace.state, SHORT)] {
        let mut row = [MARK_RECORD; 1];
        let answer = calls::row(state, &trace.room, &mut row);
        assert_eq!(answer, Err(Refusal::of(refusal)));
        assert_eq!(row, [MARK_RECORD; 1]);
        let mut bytes = [MARK_BYTE; 31];
        let answer = calls::save(state, &trace.room, &mut bytes);
        assert_eq!(answer, Err(Refusal::of(refusal)));
        assert_eq!(bytes, [MARK_BYTE; 31]);
    }
}

#[test]
fn a_search_refuses_4_and_then_6() {
    let trace = Trace::late_of(Steps(1), 2, &[(0, 1), (5, 2)]);
    let mut unsound = trace.state;
    unsound.runs = 1;
    let asked = |state, first, last| calls::first_over(state, &trace.room, first, last, 1);
    let beyond = TICKS as u32;
    for (first, last) in [
        (beyond, 0),
        (0, beyond),
        (beyond, beyond),
        (u32::MAX, beyond),
        (beyond, u32::MAX),
        (beyond, beyond - 1),
        (u32::MAX, 0),
    ] {
        assert_eq!(asked(unsound, first, last), Err(Refusal::of(UNSOUND)));
        assert_eq!(asked(trace.state, first, last), Err(Refusal::of(TICK)));
    }
    assert_eq!(asked(unsound, 0, beyond - 1), Err(Refusal::of(UNSOUND)));
    assert_eq!(asked(trace.state, 0, beyond - 1), Ok(Some((0, 0))));
    assert_eq!(asked(trace.state, beyond - 1, 0), Ok(None));
}

#[test]
fn the_tally_stops_at_its_largest_number() {
    let mut trace = Trace::in_order(Steps(1), &[1, 2]);
    trace.tally = Tally {
        accepted: u32::MAX,
        refused: u32::MAX,
        merges: u32::MAX,
    };
    let full = trace.tally;
    trace.next(3).unwrap();
    assert_eq!(trace.late(9, 3), Err(Refusal::of(KIND)));
    assert_eq!(trace.tally, full);
    // Two merges at once, with one left to count.
    let mut closing = Trace::late_of(Steps(1), 2, &[(0, 0), (1, 9), (3, 0), (4, 9)]);
    closing.tally.merges = u32::MAX - 1;
    closing.late(2, 4).unwrap();
    assert_eq!(closing.state.used, 3);
    assert_eq!(closing.tally.merges, u32::MAX);
}

#[test]
fn junk_is_refused_and_left_as_it_was() {
    let mut random = Random::new(31);
    for _ in 0..60_000 {
        let state = random_state(&mut random);
        let room = random_room(&mut random);
        try_every_call(state, &room, &mut random);
    }
}

#[test]
fn a_trace_with_one_number_damaged() {
    let mut random = Random::new(32);
    let (mut sound, mut unsound) = (0, 0);
    for _ in 0..40_000 {
        let mut trace = random_trace(&mut random);
        damage(&mut trace, &mut random);
        if try_every_call(trace.state, &trace.room, &mut random) {
            sound += 1;
        } else {
            unsound += 1;
        }
    }
    assert!(sound > 1_000 && unsound > 10_000, "{sound} {unsound}");
}

/// A number of any size, mostly about the bounds that soundness names.
fn random_size(random: &mut Random) -> u64 {
    match random.below(4) {
        0 => random.number(),
        1 => u64::MAX - random.below(3),
        2 => random.choice(&[
            255,
            256,
            257,
            511,
            512,
            513,
            TICKS - 1,
            TICKS,
            1 << 31,
            1 << 32,
            1 << 62,
        ]),
        _ => random.below(6),
    }
}

fn random_state(random: &mut Random) -> State {
    State {
        kind: random.choice(&[Kind::InOrder, Kind::Late]),
        base: random_size(random),
        gaps: random_size(random),
        used: random_size(random),
        runs: random_size(random),
        readings: random_size(random),
        // Mostly a good one, so that something else is what is wrong.
        edition: match random.below(8) {
            0 => random_size(random),
            _ => random.choice(&[1, 2]),
        },
    }
}

fn random_room(random: &mut Random) -> Vec<i64> {
    let length = random.choice(&[0, 1, 11, 12, 13, 16, 20, 40, 100]);
    let zeros = random.below(2) == 0;
    (0..length)
        .map(|_| if zeros { 0 } else { random_size(random) as i64 })
        .collect()
}

fn damage(trace: &mut Trace, random: &mut Random) {
    let state = &mut trace.state;
    let nearby = random.below(2) == 0;
    let by = random.choice(&[-1_i64, 1]);
    let any = random_size(random);
    let spoil = |field: &mut u64| {
        *field = if nearby {
            field.wrapping_add_signed(by)
        } else {
            any
        }
    };
    match random.below(13) {
        12 => spoil(&mut state.edition),
        0 => spoil(&mut state.base),
        1 => spoil(&mut state.gaps),
        2 => spoil(&mut state.used),
        3 => spoil(&mut state.runs),
        4 => spoil(&mut state.readings),
        5 => {
            state.kind = match state.kind {
                Kind::InOrder => Kind::Late,
                Kind::Late => Kind::InOrder,
            }
        }
        6 => trace.room.truncate(any as usize % (trace.room.len() + 1)),
        _ => {
            let index = random.below(trace.room.len() as u64) as usize;
            let number = &mut trace.room[index];
            *number = if nearby { *number + by } else { any as i64 };
        }
    }
}

/// Makes each call on its own copy and looks at what it left; answers whether they were sound.
fn try_every_call(state: State, room: &[i64], random: &mut Random) -> bool {
    let sound = is_sound(state, room);
    let late = state.kind == Kind::Late;
    let value = random_value(random);
    let tick = random_size(random) as u32;
    let held = held_in(state, room, tick, sound);

    let expected = if !sound {
        Some(UNSOUND)
    } else if late {
        Some(KIND)
    } else if state.readings == TICKS {
        Some(TICK)
    } else {
        None
    };
    reading_call(state, room, expected, |room, tally| {
        calls::next_tallied(state, room, value, tally)
    });

    let expected = if !sound {
        Some(UNSOUND)
    } else if !late {
        Some(KIND)
    } else if u64::from(tick) >= TICKS {
        Some(TICK)
    } else if held {
        Some(TAKEN)
    } else {
        let before = tick > 0 && held_in(state, room, tick - 1, sound);
        let after = held_in(state, room, tick + 1, sound);
        let joined = u64::from(before) + u64::from(after);
        (state.runs + 1 - joined > state.gaps).then_some(RUNS)
    };
    reading_call(state, room, expected, |room, tally| {
        calls::late_tallied(state, room, tick, value, tally)
    });

    let expected = if !sound {
        Some(UNSOUND)
    } else if u64::from(tick) >= TICKS {
        Some(TICK)
    } else if !held {
        Some(ABSENT)
    } else {
        None
    };
    let answer = calls::lookup(state, room, tick);
    assert_eq!(answer.err(), expected.map(Refusal::of));

    let last = random_size(random) as u32;
    let expected = if !sound {
        Some(UNSOUND)
    } else if u64::from(tick.max(last)) >= TICKS {
        Some(TICK)
    } else {
        None
    };
    let answer = calls::first_over(state, room, tick, last, value);
    assert_eq!(answer.err(), expected.map(Refusal::of));

    let length = random.below(10) as usize;
    let expected = if !sound {
        Err(Refusal::of(UNSOUND))
    } else if (length as u64) < state.used {
        Err(Refusal::of(SHORT))
    } else {
        Ok(state.used)
    };
    let written = expected.map_or(0, |records| records as usize);
    let mut row = vec![MARK_RECORD; length];
    assert_eq!(calls::row(state, room, &mut row), expected);
    assert!(row[written..].iter().all(|record| *record == MARK_RECORD));
    let mut bytes = vec![MARK_BYTE; length * RECORD_BYTES + 5];
    assert_eq!(calls::save(state, room, &mut bytes), expected);
    let rest = &bytes[written * RECORD_BYTES..];
    assert!(rest.iter().all(|byte| *byte == MARK_BYTE));

    let caption = random.choice(&[&b"relay"[..], b"", b"a\x7F"]);
    let exact = match sound {
        true => picture::text(&buckets_in(state, room), caption).len(),
        false => 600,
    };
    let length = exact - random.below(2) as usize;
    let expected = if !sound {
        Err(Refusal::of(UNSOUND))
    } else if caption.contains(&0x7F) {
        Err(Refusal::of(CAPTION))
    } else if length < exact {
        Err(Refusal::of(SHORT))
    } else {
        Ok(exact as u64)
    };
    let mut bytes = vec![MARK_BYTE; length + 3];
    let answer = calls::picture(state, room, caption, &mut bytes[..length]);
    assert_eq!(answer, expected);
    let rest = &bytes[expected.map_or(0, |written| written as usize)..];
    assert!(rest.iter().all(|byte| *byte == MARK_BYTE));

    settings_calls(state, room, random);
    sound
}

/// Of a sound trace.
fn buckets_in(state: State, room: &[i64]) -> Vec<Bucket> {
    let slots = room.chunks(SLOT).take(state.used as usize);
    let bucket = |slot: &[i64]| bucket(slot[0] as u64, slot[1] as u64, slot[2], slot[3]);
    slots.map(bucket).collect()
}

fn held_in(state: State, room: &[i64], tick: u32, sound: bool) -> bool {
    let slots = room.chunks(SLOT).take(state.used as usize);
    let tick = i64::from(tick);
    sound
        && slots
            .into_iter()
            .any(|slot| slot[0] <= tick && tick < slot[0] + slot[1])
}

fn reading_call(
    state: State,
    room: &[i64],
    expected: Option<u32>,
    call: impl Fn(&mut [i64], &mut Tally) -> Result<State, Refusal>,
) {
    let mut room_after = room.to_vec();
    let mut tally = Tally::default();
    match call(&mut room_after, &mut tally) {
        Err(refusal) => {
            assert_eq!(Some(refusal), expected.map(Refusal::of));
            assert_eq!(room_after, room);
            assert_eq!((tally.accepted, tally.refused, tally.merges), (0, 1, 0));
        }
        Ok(after) => {
            assert_eq!(expected, None);
            assert!(is_sound(after, &room_after));
            assert_eq!(after.readings, state.readings + 1);
            assert_eq!(after.edition, state.edition);
            let needed = needed_slots(state.kind, state.base, state.gaps) * SLOT;
            assert_eq!(room_after[needed..], room[needed..]);
            assert_eq!((tally.accepted, tally.refused), (1, 0));
            assert_eq!(u64::from(tally.merges), state.used + 1 - after.used);
        }
    }
}

/// Open and load with the state's settings, its base limit taken as B or as C; the bytes are junk too.
fn settings_calls(state: State, room: &[i64], random: &mut Random) {
    let State {
        kind,
        base,
        gaps,
        edition,
        ..
    } = state;
    let size = random.choice(&[Steps(base), Base(base)]);
    let length: usize = random.choice(&[0, 1, 15, 16, 17, 32, 48]);
    let bytes: Vec<u8> = (0..length)
        .map(|_| random.choice(&[0, 0, 0, 1, 255]))
        .collect();
    let mut opened_room = room.to_vec();
    let opened = calls::open(edition, kind, size, gaps, &mut opened_room);
    let mut loaded_room = room.to_vec();
    let loaded = calls::load(edition, kind, size, gaps, &bytes, &mut loaded_room);
    for (answer, room_after) in [(opened, &opened_room), (loaded, &loaded_room)] {
        match answer {
            Err(_) => assert_eq!(room_after, room),
            Ok(after) => {
                assert!(is_sound(after, room_after));
                assert_eq!(after.edition, edition);
                let needed = needed_slots(kind, after.base, after.gaps) * SLOT;
                assert_eq!(room_after[needed..], room[needed..]);
            }
        }
    }
    if let Err(refusal) = opened {
        assert_eq!(loaded, Err(refusal));
    } else if !length.is_multiple_of(RECORD_BYTES) {
        assert_eq!(loaded, Err(Refusal::of(LENGTH)));
    }
}
