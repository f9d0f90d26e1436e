//! The loaded files meet every answer, and each fault has the answers that it should.

use second::calls::State;
use second::calls::{self, Refusal, GAPS, LENGTH, OVERFULL, RECORD, ROOM, RUNS, STEPS};
use second::rule::Kind;
use second::scripts::files::{self, Fault, Shape, Try, FAULTS};
use std::collections::BTreeSet;

/// What every number of the room is before a load.
const OLD: i64 = -1_002;

/// One try, with what it was answered and what it left.
struct Load<'a> {
    place: usize,
    setting: usize,
    file: &'a [u8],
    answer: Result<State, Refusal>,
    room: Vec<i64>,
}

impl<'a> Load<'a> {
    fn of(tried: &Try<'a>) -> Load<'a> {
        let mut room = vec![OLD; tried.lent];
        // Which edition is no matter of files.
        let edition = 1 + tried.place as u64 % 2;
        let (kind, size, gaps) = (tried.kind, tried.size, tried.gaps);
        let answer = calls::load(edition, kind, size, gaps, tried.file, &mut room);
        Load {
            place: tried.place,
            setting: tried.setting,
            file: tried.file,
            answer,
            room,
        }
    }
}

/// 0 stands for an accepted load.
fn number(load: &Load) -> u32 {
    load.answer.map_or_else(|refusal| refusal.number, |_| 0)
}

fn each(fault: Fault, mut told: impl FnMut(&Shape, &Load)) {
    for shape in files::shapes() {
        files::each_try(&shape, fault, |tried| told(&shape, &Load::of(tried)));
    }
}

/// The answers that the shapes' own settings, in a room that is longer than needed, give.
fn fitting(fault: Fault) -> BTreeSet<u32> {
    let mut numbers = BTreeSet::new();
    each(fault, |_, load| {
        if load.setting == 0 {
            numbers.insert(number(load));
        }
    });
    numbers
}

#[test]
fn every_answer_of_load_occurs() {
    let mut numbers = BTreeSet::new();
    for fault in FAULTS {
        each(fault, |_, load| {
            numbers.insert(number(load));
        });
    }
    let expected = [0, STEPS, GAPS, ROOM, LENGTH, RECORD, RUNS, OVERFULL];
    assert_eq!(numbers, BTreeSet::from(expected));
}

#[test]
fn each_fault_has_its_answers() {
    for (fault, expected) in [
        (Fault::Whole, &[0][..]),
        (Fault::Flipped, &[0, RECORD, RUNS, OVERFULL]),
        (Fault::Dropped, &[0, RECORD, RUNS]),
        (Fault::Doubled, &[RECORD]),
        (Fault::Swapped, &[RECORD]),
        (Fault::Cut, &[LENGTH]),
        (Fault::Empty, &[RECORD]),
        (Fault::PastTheEnd, &[RECORD]),
        (Fault::LeastAboveLargest, &[RECORD]),
        (Fault::Unequal, &[RECORD]),
        (Fault::Gap, &[0, RECORD, RUNS]),
        (Fault::RunMore, &[0, RECORD, RUNS]),
        (Fault::RecordMore, &[0, OVERFULL]),
    ] {
        let expected: BTreeSet<u32> = expected.iter().copied().collect();
        assert_eq!(fitting(fault), expected, "{fault:?}");
    }
}

#[test]
fn a_faulty_record_is_named() {
    let place = |fault, shape: &Shape, place| match fault {
        Fault::Doubled => place + 1,
        Fault::Swapped if shape.kind == Kind::Late => place + 1,
        Fault::PastTheEnd => place / 3,
        Fault::LeastAboveLargest => place / 2,
        _ => place,
    };
    for fault in [
        Fault::Doubled,
        Fault::Swapped,
        Fault::Empty,
        Fault::PastTheEnd,
        Fault::LeastAboveLargest,
        Fault::Unequal,
    ] {
        each(fault, |shape, load| {
            if load.setting == 0 {
                let refusal = Refusal {
                    number: RECORD,
                    place: place(fault, shape, load.place) as u64,
                };
                assert_eq!(load.answer, Err(refusal), "{fault:?} {shape:?}");
            }
        });
    }
    each(Fault::Gap, |shape, load| {
        if load.setting == 0 && shape.kind == Kind::InOrder {
            assert_eq!(
                load.answer.map_err(|refusal| refusal.place),
                Err(load.place as u64)
            );
        }
    });
}

#[test]
fn each_setting_has_its_answers() {
    let mut met = vec![BTreeSet::new(); 13];
    each(Fault::Whole, |shape, load| {
        met[load.setting].insert((shape.kind == Kind::Late, number(load)));
    });
    let both = |number| BTreeSet::from([(false, number), (true, number)]);
    assert_eq!(met[0], both(0));
    let other_kind = [(false, 0), (true, 0), (true, RECORD), (true, OVERFULL)];
    assert_eq!(met[1], BTreeSet::from(other_kind));
    for number in [0, STEPS, OVERFULL] {
        assert!(met[2].is_superset(&both(number)), "{number}");
    }
    assert_eq!(
        met[3],
        BTreeSet::from([(false, 0), (true, 0), (true, GAPS), (true, RUNS)])
    );
    assert_eq!(met[4], both(0));
    assert_eq!(met[5], both(ROOM));
    assert_eq!(met[6], both(STEPS));
    assert_eq!(met[7], both(STEPS));
    assert_eq!(met[8], BTreeSet::from([(false, 0), (true, GAPS)]));
    assert_eq!(met[9], BTreeSet::from([(false, 0), (true, GAPS)]));
    assert_eq!(met[10], both(STEPS));
    assert_eq!(met[11], BTreeSet::from([(false, ROOM), (true, GAPS)]));
    assert_eq!(met[12], both(ROOM));
}

#[test]
fn a_refused_load_leaves_the_room_and_an_accepted_one_saves_to_its_file() {
    for fault in FAULTS {
        each(fault, |_, load| match load.answer {
            Err(_) => {
                assert!(load.room.iter().all(|&number| number == OLD));
            }
            Ok(state) => {
                let mut saved = vec![0; load.file.len()];
                let buckets = calls::save(state, &load.room, &mut saved);
                assert_eq!(buckets, Ok(saved.len() as u64 / 16));
                assert_eq!(saved, load.file);
            }
        });
    }
}
