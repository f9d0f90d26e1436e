//! Editions: traces worked by hand in which the two differ, what stays the same in both, and wrong ways to take them, each on the script of editions.

use crate::support::{bucket, bytes_of, marked_room, random_trace, random_value, Trace};
use second::calls::Size::{Base, Steps};
use second::calls::{
    self, Refusal, State, EDITION, GAPS, LENGTH, OVERFULL, RECORD, ROOM, RUNS, SLOT, STEPS, UNSOUND,
};
use second::clauses::{self, EDITION_CLAUSE};
use second::command::{Command, Name, Word};
use second::listing;
use second::logger::{self, Frame};
use second::made::NO_EDITIONS;
use second::picture;
use second::random::Random;
use second::rule::{self, Bucket, Edition, Kind};
use second::scripts;
use second::session::{kind_of, size_of, Answer, Session};
use std::cmp::Reverse;
use std::sync::LazyLock;

#[test]
fn four_equal_readings_in_two_steps() {
    let values = [5; 4];
    let first = Trace::in_order_in(1, Base(2), &values);
    assert_eq!(first.buckets(), [bucket(0, 3, 5, 5), bucket(3, 1, 5, 5)]);
    let second = Trace::in_order_in(2, Base(2), &values);
    assert_eq!(second.buckets(), [bucket(0, 2, 5, 5), bucket(2, 2, 5, 5)]);
    let by_steps = Trace::in_order_in(2, Steps(1), &values);
    assert_eq!(by_steps.state, second.state);
}

#[test]
fn h2_to_h5_are_the_same_in_both() {
    for (steps, values) in [
        (1, &[1, 4, 2, 9][..]),
        (1, &[0, 1, 2]),
        (1, &[5, 5, 5]),
        (2, &[0, 5, 9, 14, 18]),
    ] {
        let [first, second] = [1, 2].map(|edition| {
            let trace = Trace::in_order_in(edition, Steps(steps), values);
            assert_eq!(trace.state.edition, edition);
            trace.buckets()
        });
        assert_eq!(first, second, "{values:?}");
    }
}

/// By hand, C = 1 and one run at the end, so two buckets. Of the three that 0, 1 and 2 are, the first two become one. The runs of 0 to 2 and of 4 hold
/// two and one; at 3 the gap closes, four buckets are there and two may be: (0, 2), (2, 1), (3, 1), (4, 1).
///
/// In the first edition (0, 2) and (2, 1) become (0, 3), then that and (3, 1) become (0, 4). In the second (2, 1) and (3, 1) have two ticks together, as
/// (3, 1) and (4, 1) have, and start first: (2, 2). Then (0, 2) and (2, 2) would be four ticks, (2, 2) and (4, 1) three: (2, 3).
#[test]
fn a_gap_that_closes_between_equal_readings() {
    let readings = [(0, 5), (1, 5), (2, 5), (4, 5)];
    for (edition, tables) in [(1, [[0, 4], [4, 1]]), (2, [[0, 2], [2, 3]])] {
        let mut trace = Trace::late_in(edition, Base(1), 2, &readings);
        let ticks = |trace: &Trace| -> Vec<[u64; 2]> {
            let buckets = trace.buckets();
            buckets.iter().map(|one| [one.start, one.count]).collect()
        };
        assert_eq!(ticks(&trace), [[0, 2], [2, 1], [4, 1]]);
        trace.late(3, 5).unwrap();
        assert_eq!(ticks(&trace), tables, "edition {edition}");
        assert_eq!((trace.state.runs, trace.tally.merges), (1, 3));
        assert_eq!(trace.state.edition, edition);
    }
}

/// By hand, C = 2. At the third reading both unions are 1 apart and of two ticks: the first two become one, in either edition. At the fourth both are 1
/// apart again, but the first of them has three ticks and the second two.
#[test]
fn two_levels_in_turn() {
    for (edition, expected) in [
        (1, [bucket(0, 3, 0, 1), bucket(3, 1, 1, 1)]),
        (2, [bucket(0, 2, 0, 1), bucket(2, 2, 0, 1)]),
    ] {
        let trace = Trace::in_order_in(edition, Base(2), &[0, 1, 0, 1]);
        assert_eq!(trace.buckets(), expected, "edition {edition}");
    }
}

/// The three ticks that are flat, and not two of those that are not.
#[test]
fn the_spread_comes_before_the_count() {
    for edition in [1, 2] {
        let trace = Trace::in_order_in(edition, Base(4), &[4, 4, 4, 9, 20, 4]);
        let expected = [
            bucket(0, 3, 4, 4),
            bucket(3, 1, 9, 9),
            bucket(4, 1, 20, 20),
            bucket(5, 1, 4, 4),
        ];
        assert_eq!(trace.buckets(), expected, "edition {edition}");
    }
}

#[test]
fn pages_are_listed_drawn_and_saved_in_the_first() {
    let readings: Vec<(u32, i32)> = (0..200).map(|tick| (tick, 5)).collect();
    for (steps, late, count) in [
        (1, false, 4),
        (1, true, 5),
        (64, false, 200),
        (64, true, 200),
    ] {
        let readings = &readings[..count];
        let values = vec![5; count];
        let mut lines = String::new();
        // 64 is named by no line.
        if steps == 1 {
            lines += "steps 1\n";
        }
        if late {
            lines += "late 1\n";
        }
        for (tick, value) in readings {
            lines += &match late {
                true => format!("{tick} {value}\n"),
                false => format!("{value}\n"),
            };
        }
        let [first, second] = [1, 2].map(|edition| match late {
            true => Trace::late_in(edition, Steps(steps), 1, readings),
            false => Trace::in_order_in(edition, Steps(steps), &values),
        });
        assert_ne!(first.buckets(), second.buckets());
        assert_eq!(listing::save(lines.as_bytes()).unwrap(), first.saved());
        for (edition, trace) in [(Edition::First, &first), (Edition::Second, &second)] {
            let saved = listing::save_in(edition, lines.as_bytes()).unwrap();
            assert_eq!(saved, trace.saved());
        }
        let drawn = listing::draw(format!("pin\n{lines}").as_bytes()).unwrap();
        assert_eq!(drawn, picture::text(&first.buckets(), b"pin"));
        let mut expected = String::new();
        for one in first.buckets() {
            expected += &format!("{} {} 5 5 5\n", one.start, one.count);
        }
        expected += &format!("total {count} {} 0\n", first.state.used);
        let listed = listing::list(lines.as_bytes()).unwrap();
        assert_eq!(String::from_utf8(listed).unwrap(), expected);
    }
}

/// One in order and one late, so that a page that is made anew in the other edition is seen.
#[test]
fn stored_pages_tell_the_editions_apart() {
    macro_rules! page {
        ($name:literal) => {
            [
                &include_bytes!(concat!("../../../pages/", $name, ".trace"))[..],
                include_bytes!(concat!("../../../pages/", $name, ".list")),
                include_bytes!(concat!("../../../pages/", $name, ".saved")),
            ]
        };
    }
    for (late, [trace, list, saved]) in [(false, page!("lamp")), (true, page!("flat"))] {
        let second_line = trace.split(|&byte| byte == b'\n').nth(1).unwrap();
        assert_eq!(second_line.starts_with(b"late "), late);
        assert_eq!(listing::list(trace).unwrap(), list);
        assert_eq!(listing::save(trace).unwrap(), saved);
        let otherwise = listing::save_in(Edition::Second, trace).unwrap();
        assert_ne!(otherwise, saved);
        // As many readings are in it.
        assert_eq!(readings_saved(&otherwise), readings_saved(saved));
    }
}

fn readings_saved(file: &[u8]) -> u32 {
    let count = |record: &[u8]| u32::from_le_bytes(record[4..8].try_into().unwrap());
    file.chunks_exact(16).map(count).sum()
}

#[test]
fn of_the_fewest_ticks_the_lowest_start() {
    let table = |counts: &[u32]| {
        let mut start = 0;
        let mut records = Vec::new();
        for &count in counts {
            records.push((start, count, 5, 5));
            start += count;
        }
        records
    };
    // The counts that are there, those of the first edition after one more, and those of the second.
    for (before, first, second) in [
        (
            &[3, 2, 2, 1, 1][..],
            &[5, 2, 1, 1, 1][..],
            &[3, 2, 2, 2, 1][..],
        ),
        (&[1, 1, 1, 1, 1], &[2, 1, 1, 1, 1], &[2, 1, 1, 1, 1]),
        (&[9, 9, 4, 4, 9], &[18, 4, 4, 9, 1], &[9, 9, 8, 9, 1]),
        (&[9, 5, 5, 9, 8], &[14, 5, 9, 8, 1], &[9, 5, 5, 9, 9]),
        (
            &[65_536, 65_535, 1, 65_535, 3],
            &[131_071, 1, 65_535, 3, 1],
            &[65_536, 65_535, 1, 65_535, 4],
        ),
    ] {
        for (edition, counts) in [(1, first), (2, second)] {
            let mut room = marked_room(Kind::InOrder, Base(5), 0);
            let bytes = bytes_of(&table(before));
            let state = calls::load(edition, Kind::InOrder, Base(5), 0, &bytes, &mut room).unwrap();
            let after = calls::next(state, &mut room, 5).unwrap();
            let there: Vec<i64> = room.chunks(SLOT).take(5).map(|slot| slot[1]).collect();
            let counts: Vec<i64> = counts.iter().copied().map(i64::from).collect();
            assert_eq!(there, counts, "{before:?} in edition {edition}");
            assert_eq!((after.used, after.edition), (5, edition));
        }
    }
}

#[test]
fn an_unknown_edition_is_unsound_by_every_call() {
    let mut random = Random::new(61);
    for _ in 0..300 {
        let trace = random_trace(&mut random);
        for edition in NO_EDITIONS {
            let state = State {
                edition,
                ..trace.state
            };
            let mut room = trace.room.clone();
            let unsound = Err(Refusal::of(UNSOUND));
            assert_eq!(calls::next(state, &mut room, 1), unsound);
            assert_eq!(calls::late(state, &mut room, 50, 1), unsound);
            let fed = calls::next_many(state, &mut room, &[1, 2]);
            assert_eq!((fed.state, fed.accepted), (state, 0));
            assert_eq!(fed.refusal, Some(Refusal::of(UNSOUND)));
            assert_eq!(calls::next_many(state, &mut room, &[]).refusal, None);
            assert!(calls::lookup(state, &room, 0).is_err_and(|r| r.number == UNSOUND));
            assert!(calls::first_over(state, &room, 0, 1, 0).is_err_and(|r| r.number == UNSOUND));
            assert!(calls::worst(state, &room).is_err_and(|r| r.number == UNSOUND));
            assert!(calls::row(state, &room, &mut []).is_err_and(|r| r.number == UNSOUND));
            assert!(calls::save(state, &room, &mut []).is_err_and(|r| r.number == UNSOUND));
            assert!(calls::picture(state, &room, b"", &mut []).is_err_and(|r| r.number == UNSOUND));
            assert_eq!(room, trace.room);
            let broken = clauses::broken(state, &room);
            assert_eq!(clauses::alone(&broken), Some(EDITION_CLAUSE));
        }
    }
}

/// Of two levels, so that spreads are equal.
fn flat_trace(random: &mut Random) -> Trace {
    let edition = random.choice(&[1, 2]);
    let kind = random.choice(&[Kind::InOrder, Kind::Late]);
    let base = random.between(1, 6) as u64;
    let mut trace = Trace::open_in(edition, kind, Base(base), 4);
    for _ in 0..random.below(20) {
        let value = random.between(0, 1) as i32;
        // Those that are taken or would make a run too many are left out.
        let _ = match kind {
            Kind::InOrder => trace.next(value),
            Kind::Late => trace.late(random.below(40) as u32, value),
        };
    }
    trace
}

/// A file does not say its edition: it is the same bytes, and the trace goes on as the one that is named says.
#[test]
fn loaded_in_the_other_edition_a_trace_goes_on_by_that() {
    let mut random = Random::new(62);
    let mut otherwise = 0;
    for _ in 0..3_000 {
        let trace = flat_trace(&mut random);
        let other = 3 - trace.state.edition;
        let mut moved = trace.reloaded_in(other);
        assert_eq!(moved.state.edition, other);
        assert_eq!(moved.room, trace.room);
        assert_eq!(moved.saved(), trace.saved());
        let mut stayed = trace.reloaded();
        // Of a state whose edition is set anew, the same.
        let mut set = trace.clone();
        set.state.edition = other;
        for _ in 0..12 {
            let value = random.between(0, 1) as i32;
            let tick = random.below(45) as u32;
            for trace in [&mut moved, &mut stayed, &mut set] {
                let _ = match trace.state.kind {
                    Kind::InOrder => trace.next(value),
                    Kind::Late => trace.late(tick, value),
                };
            }
            assert_eq!((moved.state, &moved.room), (set.state, &set.room));
        }
        otherwise += usize::from(moved.buckets() != stayed.buckets());
    }
    assert!(otherwise >= 500, "{otherwise}");
}

#[test]
fn a_replay_in_an_edition_is_its_late_readings_in_it() {
    let mut random = Random::new(63);
    let mut otherwise = 0;
    for _ in 0..1_000 {
        let base = random.between(1, 6) as u64;
        let mut counter = 0_u16;
        let mut frames = Vec::new();
        let mut fed = [1, 2].map(|edition| Trace::open_in(edition, Kind::Late, Base(base), 9));
        for _ in 0..random.between(5, 40) {
            let value = match random.below(4) {
                0 => random_value(&mut random),
                _ => random.between(0, 1) as i32,
            };
            frames.push(Frame { counter, value });
            for trace in &mut fed {
                let _ = trace.late(32_768 + u32::from(counter), value);
            }
            counter = random.below(30) as u16;
        }
        // The newest is never more than half a turn away.
        let recording = logger::recording(&frames);
        let tables = [1, 2].map(|edition| {
            let mut room = marked_room(Kind::Late, Base(base), 9);
            let replayed = calls::replay(edition, Base(base), 9, &recording, &mut room).unwrap();
            (replayed.state, room)
        });
        for (trace, (state, room)) in fed.iter().zip(&tables) {
            assert_eq!((&trace.state, &trace.room), (state, room));
        }
        otherwise += usize::from(tables[0].1 != tables[1].1);
    }
    assert!(otherwise >= 100, "{otherwise}");
}

/// A way to take editions: which number each word takes, and as what; whether a state's is sound; behind which refusal 16 comes; what a load and a replay
/// keep; by which edition readings of a kind merge, one by one, told and many at one call; which union is merged in the second; and what becomes of the
/// edition of a state that goes on.
struct EditionWay {
    taken: fn(u64) -> Option<u64>,
    is_sound: fn(u64) -> bool,
    /// 0 where it comes first.
    behind: u32,
    loaded: fn(u64) -> u64,
    replayed: fn(u64) -> u64,
    merges_by: fn(u64, Kind) -> u64,
    told_by: fn(u64) -> u64,
    many_by: fn(u64) -> u64,
    /// The second merge of one reading.
    again_by: fn(u64) -> u64,
    cost: Cost,
    of_equals_the_last: bool,
    gone_on: fn(u64) -> u64,
}

/// What is least where two neighbours are merged in the second edition.
type Cost = fn(&Bucket, &Bucket) -> (i64, i64);

fn known(number: u64) -> Option<u64> {
    match number {
        1 | 2 => Some(number),
        _ => None,
    }
}

fn counted(first: &Bucket, second: &Bucket) -> (i64, i64) {
    let least = first.least.min(second.least);
    let largest = first.largest.max(second.largest);
    (largest - least, (first.count + second.count) as i64)
}

const RIGHT: EditionWay = EditionWay {
    taken: known,
    is_sound: |number| known(number).is_some(),
    behind: 0,
    loaded: |edition| edition,
    replayed: |edition| edition,
    merges_by: |edition, _| edition,
    told_by: |edition| edition,
    many_by: |edition| edition,
    again_by: |edition| edition,
    cost: counted,
    of_equals_the_last: false,
    gone_on: |edition| edition,
};

/// What a call of the script is given, and what it answers.
struct Asked {
    command: Command,
    state: State,
    lent: usize,
    /// As they are where the state is sound.
    table: Vec<Bucket>,
    edition: u64,
    kind: Kind,
    base: Option<u64>,
    gaps: u64,
    file: Vec<u8>,
    ticks: Vec<u32>,
    values: Vec<i32>,
    /// Whether anything but the edition is wrong with the state.
    broken_beside: bool,
    right: Told,
}

/// The refusal, or the edition and the buckets of the state that is left; of a call that leaves none, those that were given.
type Told = Result<(u64, Vec<Bucket>), u32>;

static OF_THE_SCRIPT: LazyLock<Vec<Asked>> = LazyLock::new(|| {
    let script = scripts::of_name("edition").unwrap();
    let mut session = Session::new();
    let mut all = Vec::new();
    for line in script.text.lines() {
        let Some(command) = Command::of_line(line).unwrap() else {
            continue;
        };
        // The long ones take their time.
        if !command.word.is_call() || session.lent_values(&command).len() > 700 {
            session.obey(&command);
            continue;
        }
        let mut asked = asked_of(&session, &command);
        let answer = session.obey(&command);
        let refusal = answer.refusal().map(|refusal| refusal.number);
        asked.right = match (&answer, refusal) {
            (Answer::Fed(fed), _) if fed.accepted > 0 => {
                Ok((session.state.edition, session.buckets()))
            }
            (_, Some(number)) => Err(number),
            (Answer::State(_) | Answer::Replayed(_), None) => {
                Ok((session.state.edition, session.buckets()))
            }
            _ => Ok((asked.state.edition, asked.table.clone())),
        };
        all.push(asked);
    }
    all
});

fn asked_of(session: &Session, command: &Command) -> Asked {
    let number = |name| session.setting(command, name);
    let mut broken = clauses::broken(session.state, session.lent_numbers());
    broken[EDITION_CLAUSE] = false;
    let broken_beside = broken.contains(&true);
    let opens = matches!(command.word, Word::Open | Word::Load | Word::Replay);
    Asked {
        command: *command,
        state: session.state,
        lent: session.lent,
        table: match broken_beside {
            true => Vec::new(),
            false => session.buckets(),
        },
        edition: number(Name::Edition),
        kind: match command.word {
            Word::Replay => Kind::Late,
            _ => kind_of(number(Name::Kind)),
        },
        base: size_of(command).base(),
        gaps: number(Name::Gaps),
        file: match opens {
            true => session.lent_file().to_vec(),
            false => Vec::new(),
        },
        ticks: session.lent_ticks(command).to_vec(),
        values: session.lent_values(command).to_vec(),
        broken_beside,
        right: Err(0),
    }
}

impl EditionWay {
    fn told(&self, asked: &Asked) -> Told {
        match asked.command.word {
            Word::Open => {
                let (edition, _) = self.opened(asked)?;
                Ok((edition.ok_or(EDITION)?, Vec::new()))
            }
            Word::Load => self.load(asked),
            Word::Replay => self.replay(asked),
            Word::Level | Word::Error => Ok((asked.state.edition, asked.table.clone())),
            _ => self.of_state(asked),
        }
    }

    /// The base limit, and the edition that is kept: nothing where it is unknown and has not been asked for yet.
    fn opened(&self, asked: &Asked) -> Result<(Option<u64>, u64), u32> {
        self.asked_behind(0, asked)?;
        let base = asked.base.ok_or(STEPS)?;
        self.asked_behind(STEPS, asked)?;
        if asked.kind == Kind::Late && !(1..=256).contains(&asked.gaps) {
            return Err(GAPS);
        }
        self.asked_behind(GAPS, asked)?;
        if asked.lent < calls::needed_numbers(asked.kind, base, asked.gaps) {
            return Err(ROOM);
        }
        self.asked_behind(ROOM, asked)?;
        let bytes = match asked.command.word {
            Word::Load => 16,
            Word::Replay => 6,
            _ => 1,
        };
        if !asked.file.len().is_multiple_of(bytes) {
            return Err(LENGTH);
        }
        self.asked_behind(LENGTH, asked)?;
        Ok(((self.taken)(asked.edition), base))
    }

    /// Whether the edition is known, where it is asked for behind this refusal or before it. In each call the numbers go up from one refusal to the next.
    fn asked_behind(&self, number: u32, asked: &Asked) -> Result<(), u32> {
        match (self.taken)(asked.edition) {
            None if self.behind <= number => Err(EDITION),
            _ => Ok(()),
        }
    }

    fn load(&self, asked: &Asked) -> Told {
        let (edition, base) = self.opened(asked)?;
        let word = |bytes: &[u8]| u32::from_le_bytes(bytes.try_into().unwrap());
        let record = |bytes: &[u8]| {
            let [start, count] = [0, 4].map(|at| u64::from(word(&bytes[at..at + 4])));
            let [least, largest] = [8, 12].map(|at| i64::from(word(&bytes[at..at + 4]) as i32));
            bucket(start, count, least, largest)
        };
        let table: Vec<Bucket> = asked.file.chunks(16).map(record).collect();
        if rule::first_fault(asked.kind, &table).is_some() {
            return Err(RECORD);
        }
        self.asked_behind(RECORD, asked)?;
        let runs = rule::runs(&table);
        if asked.kind == Kind::Late && runs > asked.gaps {
            return Err(RUNS);
        }
        self.asked_behind(RUNS, asked)?;
        if table.len() as u64 > rule::limit(asked.kind, base, runs) {
            return Err(OVERFULL);
        }
        Ok(((self.loaded)(edition.ok_or(EDITION)?), table))
    }

    fn replay(&self, asked: &Asked) -> Told {
        let (edition, base) = self.opened(asked)?;
        let edition = (self.replayed)(edition.ok_or(EDITION)?);
        let mut table = Vec::new();
        let mut outcomes = Vec::new();
        // What is accepted is the same in every edition.
        let mut trace = calls::Trace::open(1, Kind::Late, Base(base), asked.gaps).unwrap();
        logger::replayed(&mut trace, &asked.file, |one| outcomes.push(one));
        for one in outcomes.iter().filter(|one| one.refusal.is_none()) {
            let by = (self.merges_by)(edition, Kind::Late);
            let value = i64::from(one.frame.value);
            self.reading(by, Kind::Late, base, &mut table, one.tick as u64, value);
        }
        Ok((edition, table))
    }

    /// Of a state: unsound, or as the call answers it, but for the table.
    fn of_state(&self, asked: &Asked) -> Told {
        let many = matches!(asked.command.word, Word::NextMany | Word::LateMany);
        let asked_for = match asked.command.word {
            Word::LateMany => asked.ticks.len().min(asked.values.len()),
            _ => asked.values.len(),
        };
        if many && asked_for == 0 {
            return Ok((asked.state.edition, asked.table.clone()));
        }
        if asked.broken_beside || !(self.is_sound)(asked.state.edition) {
            return Err(UNSOUND);
        }
        let (edition, table) = match &asked.right {
            // Not refused as it should be, so that it goes on.
            Err(UNSOUND) => return Ok((asked.state.edition, asked.table.clone())),
            Err(number) => return Err(*number),
            Ok(right) => right,
        };
        let State { kind, base, .. } = asked.state;
        let readings = self.readings(asked, rule::readings(table));
        if readings.is_empty() {
            return Ok((*edition, table.clone()));
        }
        let by = (self.merges_by)(*edition, kind);
        let by = match asked.command.word {
            Word::NextTold | Word::LateTold => (self.told_by)(by),
            _ if many => (self.many_by)(by),
            _ => by,
        };
        let mut table = asked.table.clone();
        for (tick, value) in readings {
            let tick = tick.unwrap_or_else(|| table.last().map_or(0, Bucket::end));
            self.reading(by, kind, base, &mut table, tick, value);
        }
        Ok(((self.gone_on)(*edition), table))
    }

    /// Those that were accepted, as many as there are more than before.
    fn readings(&self, asked: &Asked, after: u64) -> Vec<(Option<u64>, i64)> {
        let accepted = (after - rule::readings(&asked.table)) as usize;
        let value = i64::from(asked.command.number(Name::Value) as i32);
        let tick = u64::from(asked.command.number(Name::Tick) as u32);
        let values = asked.values.iter().copied().map(i64::from);
        let ticks = asked.ticks.iter().copied().map(u64::from);
        let all: Vec<(Option<u64>, i64)> = match asked.command.word {
            Word::NextMany => values.map(|value| (None, value)).collect(),
            Word::LateMany => ticks.map(Some).zip(values).collect(),
            Word::Next | Word::NextTold => vec![(None, value)],
            Word::Late | Word::LateTold => vec![(Some(tick), value)],
            _ => Vec::new(),
        };
        all.into_iter().take(accepted).collect()
    }

    fn reading(
        &self,
        edition: u64,
        kind: Kind,
        base: u64,
        table: &mut Vec<Bucket>,
        tick: u64,
        value: i64,
    ) {
        rule::insertion(table, tick, value);
        let mut edition = edition;
        while table.len() as u64 > rule::limit(kind, base, rule::runs(table)) {
            let cost = |first: usize| {
                let [one, other] = [table[first], table[first + 1]];
                match edition {
                    1 => (counted(&one, &other).0, 0),
                    _ => (self.cost)(&one, &other),
                }
            };
            let pairs =
                (0..table.len() - 1).filter(|&first| table[first].end() == table[first + 1].start);
            let first = match self.of_equals_the_last && edition != 1 {
                true => pairs.min_by_key(|&first| (cost(first), Reverse(first))),
                false => pairs.min_by_key(|&first| (cost(first), Reverse(0))),
            };
            rule::merge(table, first.unwrap());
            edition = (self.again_by)(edition);
        }
    }

    /// The calls of the script that are answered otherwise than they should be.
    fn differences(&self) -> usize {
        let differs = |asked: &&Asked| self.told(asked) != asked.right;
        OF_THE_SCRIPT.iter().filter(differs).count()
    }
}

#[test]
fn the_right_way_to_take_editions() {
    assert_eq!(RIGHT.differences(), 0);
    assert!(OF_THE_SCRIPT.len() > 50_000);
}

fn differs_on_the_script(wrong: EditionWay) {
    let differences = wrong.differences();
    assert!(differences >= 100, "{differences}");
}

/// Each of the others by itself: where 16 came behind it, it would be given in place of 16.
#[test]
fn sixteen_comes_before_every_other() {
    for number in [STEPS, GAPS, ROOM, LENGTH, RECORD, RUNS, OVERFULL] {
        let way = EditionWay {
            behind: number,
            ..RIGHT
        };
        let given = |asked: &&Asked| asked.right == Err(EDITION) && way.told(asked) == Err(number);
        let times = OF_THE_SCRIPT.iter().filter(given).count();
        assert!(times >= 100, "{number}: {times}");
    }
}

/// A test for each wrong way.
macro_rules! wrong_ways {
    ($($name:ident { $($field:ident: $value:expr),+ $(,)? })+) => {
        $(
            #[test]
            fn $name() {
                differs_on_the_script(EditionWay {
                    $($field: $value,)+
                    ..RIGHT
                });
            }
        )+
    };
}

wrong_ways! {
    merged_always_by_the_first { merges_by: |_, _| 1 }
    merged_always_by_the_second { merges_by: |_, _| 2 }
    editions_taken_for_each_other { merges_by: |edition, _| 3 - edition }
    late_readings_always_by_the_first {
        merges_by: |edition, kind| match kind {
            Kind::InOrder => edition,
            Kind::Late => 1,
        },
    }
    readings_in_order_always_by_the_first {
        merges_by: |edition, kind| match kind {
            Kind::InOrder => 1,
            Kind::Late => edition,
        },
    }
    told_readings_always_by_the_first { told_by: |_| 1 }
    told_readings_always_by_the_second { told_by: |_| 2 }
    many_readings_always_by_the_first { many_by: |_| 1 }
    a_second_merge_by_the_first { again_by: |_| 1 }
    a_second_merge_by_the_second { again_by: |_| 2 }
    the_most_ticks {
        cost: |first, second| (counted(first, second).0, -counted(first, second).1),
    }
    the_ticks_of_the_first_of_the_two {
        cost: |first, second| (counted(first, second).0, first.count as i64),
    }
    the_ticks_of_the_second_of_the_two {
        cost: |first, second| (counted(first, second).0, second.count as i64),
    }
    the_ticks_of_the_longer_of_the_two {
        cost: |first, second| (counted(first, second).0, first.count.max(second.count) as i64),
    }
    the_count_before_the_spread {
        cost: |first, second| (counted(first, second).1, counted(first, second).0),
    }
    the_count_alone {
        cost: |first, second| (counted(first, second).1, 0),
    }
    the_sum_of_spread_and_count {
        cost: |first, second| (counted(first, second).0 + counted(first, second).1, 0),
    }
    the_error_in_place_of_the_spread {
        cost: |first, second| (first.union(second).error(), counted(first, second).1),
    }
    a_count_cut_to_16_bits {
        cost: |first, second| (counted(first, second).0, counted(first, second).1 % 65_536),
    }
    a_count_cut_to_8_bits {
        cost: |first, second| (counted(first, second).0, counted(first, second).1 % 256),
    }
    of_equal_counts_the_higher_start { of_equals_the_last: true }
    an_edition_of_3_opened {
        taken: |number| (1..=3).contains(&number).then_some(number),
    }
    an_edition_of_0_opened {
        taken: |number| (number <= 2).then_some(number),
    }
    an_edition_of_0_taken_as_1 {
        taken: |number| (number <= 2).then_some(number.max(1)),
    }
    any_edition_but_1_taken_as_2 {
        taken: |number| Some(if number == 1 { 1 } else { 2 }),
    }
    an_edition_cut_to_32_bits {
        taken: |number| known(u64::from(number as u32)),
    }
    an_edition_cut_to_8_bits {
        taken: |number| known(number % 256),
    }
    an_edition_of_3_that_is_sound { is_sound: |number| (1..=3).contains(&number) }
    an_edition_of_0_that_is_sound { is_sound: |number| number <= 2 }
    an_edition_that_is_sound_in_32_bits {
        is_sound: |number| known(u64::from(number as u32)).is_some(),
    }
    any_edition_that_is_sound { is_sound: |_| true }
    the_second_edition_unsound { is_sound: |number| number == 1 }
    sixteen_behind_one { behind: STEPS }
    sixteen_behind_two { behind: GAPS }
    sixteen_behind_three { behind: ROOM }
    sixteen_behind_seven { behind: LENGTH }
    sixteen_behind_ten { behind: OVERFULL }
    a_load_that_keeps_the_first { loaded: |_| 1 }
    a_load_that_keeps_the_second { loaded: |_| 2 }
    a_replay_that_keeps_the_first { replayed: |_| 1 }
    an_open_that_keeps_the_first { taken: |number| known(number).map(|_| 1) }
    a_reading_that_loses_the_edition { gone_on: |_| 1 }
    a_reading_that_leaves_0 { gone_on: |_| 0 }
}
