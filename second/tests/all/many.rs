//! Many readings at one call: in any cuts the same as one by one, refused in their order, and wrong ways to take them, which the script must show.

use crate::support::{loaded, random_value, Trace};
use second::calls::Size::{Base, Steps};
use second::calls::{self, Fed, Refusal, State, KIND, RUNS, SLOT, TAKEN, TICK, UNSOUND};
use second::command::{Command, Word};
use second::random::Random;
use second::rule::{self, Bucket, Edition, Kind, TICKS};
use second::scripts;
use second::session::{Answer, Session};

#[test]
fn any_cuts_leave_what_single_readings_leave() {
    let mut random = Random::new(3);
    for _ in 0..200 {
        let base = random.between(1, 40) as u64;
        let values: Vec<i32> = (0..150).map(|_| random_value(&mut random)).collect();
        let edition = random.choice(&[1, 2]);
        let mut single = Trace::open_in(edition, Kind::InOrder, Base(base), 0);
        for &value in &values {
            single.next(value).unwrap();
        }
        let mut many = Trace::open_in(edition, Kind::InOrder, Base(base), 0);
        let mut rest = &values[..];
        while !rest.is_empty() {
            let (part, behind) = rest.split_at(random.between(0, rest.len() as i64) as usize);
            let fed = calls::next_many(many.state, &mut many.room, part);
            assert_eq!((fed.accepted, fed.refusal), (part.len() as u64, None));
            many.state = fed.state;
            rest = behind;
        }
        assert_eq!((many.state, many.room), (single.state, single.room));
    }
}

/// How many were accepted, and the refusal's number.
fn told(fed: Fed) -> (u64, u32) {
    (
        fed.accepted,
        fed.refusal.map_or(0, |refusal| refusal.number),
    )
}

#[test]
fn many_readings_refuse_as_single_ones_do() {
    let mut full = loaded(Kind::InOrder, Steps(1), 0, &[(0, TICKS as u32 - 2, 0, 5)]);
    let mut unsound = full.state;
    unsound.readings += 1;
    let room = &mut full.room;
    assert_eq!(told(calls::next_many(unsound, room, &[])), (0, 0));
    assert_eq!(told(calls::next_many(unsound, room, &[1])), (0, UNSOUND));
    assert_eq!(told(calls::late_many(unsound, room, &[1], &[])), (0, 0));
    assert_eq!(told(calls::late_many(unsound, room, &[], &[1])), (0, 0));
    assert_eq!(
        told(calls::late_many(unsound, room, &[1], &[1])),
        (0, UNSOUND)
    );
    assert_eq!(
        told(calls::late_many(full.state, room, &[1], &[1])),
        (0, KIND)
    );
    let fed = calls::next_many(full.state, room, &[7, 8, 9]);
    assert_eq!((told(fed), fed.state.readings), ((2, TICK), TICKS));

    let mut late = Trace::open(Kind::Late, Base(3), 2);
    let mut feed = |ticks: &[u32], values: &[i32]| {
        let fed = calls::late_many(late.state, &mut late.room, ticks, values);
        late.state = fed.state;
        told(fed)
    };
    assert_eq!(feed(&[4, 9, 5, 5, 6], &[1; 5]), (3, TAKEN));
    assert_eq!(feed(&[6, 20, 7], &[1; 5]), (1, RUNS));
    assert_eq!(feed(&[7, TICKS as u32, 8], &[1; 5]), (1, TICK));
    assert_eq!(feed(&[8, 8], &[1]), (1, 0));
    assert_eq!(feed(&[8], &[1, 1]), (0, TAKEN));
}

/// What a call of many readings is given.
struct Given<'a> {
    state: State,
    room: Vec<i64>,
    ticks: &'a [u32],
    values: &'a [i32],
    late: bool,
}

impl Given<'_> {
    /// Of a sound trace.
    fn edition(&self) -> Edition {
        Edition::of_number(self.state.edition).unwrap()
    }

    fn asked(&self) -> usize {
        match self.late {
            true => self.ticks.len().min(self.values.len()),
            false => self.values.len(),
        }
    }

    fn single(&self, state: State, room: &mut [i64], at: usize) -> Result<State, Refusal> {
        match self.late {
            true => calls::late(state, room, self.ticks[at], self.values[at]),
            false => calls::next(state, room, self.values[at]),
        }
    }

    /// The first so many as they should be taken, and the room then.
    fn first(&self, count: usize) -> (Fed, Vec<i64>) {
        let mut room = self.room.clone();
        let values = &self.values[..count.min(self.values.len())];
        let fed = match self.late {
            true => calls::late_many(self.state, &mut room, self.ticks, values),
            false => calls::next_many(self.state, &mut room, values),
        };
        (fed, room)
    }

    /// A sound trace in order taken by another choice of what becomes one, as long as ticks are left.
    fn merged(&self, first: impl Fn(&[Bucket]) -> usize) -> (Fed, Vec<i64>) {
        let (mut fed, mut room) = self.first(usize::MAX);
        if self.late || fed.accepted == 0 {
            return (fed, room);
        }
        let bucket = |slot: &[i64]| Bucket {
            start: slot[0] as u64,
            count: slot[1] as u64,
            least: slot[2],
            largest: slot[3],
        };
        let used = SLOT * self.state.used as usize;
        let mut table: Vec<Bucket> = self.room[..used].chunks(SLOT).map(bucket).collect();
        for &value in &self.values[..fed.accepted as usize] {
            let tick = table.last().map_or(0, Bucket::end);
            rule::insertion(&mut table, tick, i64::from(value));
            if table.len() as u64 > self.state.base {
                let first = first(&table);
                rule::merge(&mut table, first);
            }
        }
        fed.state.used = table.len() as u64;
        for (slot, bucket) in room.chunks_exact_mut(SLOT).zip(&table) {
            let ticks = [bucket.start as i64, bucket.count as i64];
            slot.copy_from_slice(&[ticks[0], ticks[1], bucket.least, bucket.largest]);
        }
        (fed, room)
    }
}

/// A way to take many readings.
type Way = fn(&Given) -> (Fed, Vec<i64>);

const RIGHT: [(&str, Way); 2] = [
    ("as the call does", |given| given.first(usize::MAX)),
    ("by the cheapest neighbours", |given| {
        given.merged(|table| rule::cheapest_neighbours(given.edition(), table).unwrap())
    }),
];

const WRONG: [(&str, Way); 14] = [
    ("all or nothing", |given| match given.first(usize::MAX) {
        (fed, _) if fed.refusal.is_some() => {
            let (state, accepted) = (given.state, 0);
            (
                Fed {
                    state,
                    accepted,
                    ..fed
                },
                given.room.clone(),
            )
        }
        right => right,
    }),
    ("a refused one passed over", |given| {
        let mut room = given.room.clone();
        let mut fed = given.first(0).0;
        for at in 0..given.asked() {
            match given.single(fed.state, &mut room, at) {
                Ok(after) => {
                    fed.state = after;
                    fed.accepted += 1;
                }
                Err(refusal) => fed.refusal = fed.refusal.or(Some(refusal)),
            }
        }
        (fed, room)
    }),
    ("soundness asked where there are none", |given| {
        let (mut fed, room) = given.first(usize::MAX);
        let unsound = calls::worst(given.state, &given.room).err();
        fed.refusal = fed.refusal.or(unsound);
        (fed, room)
    }),
    ("the kind asked where there are none", |given| {
        let (mut fed, room) = given.first(usize::MAX);
        if given.asked() == 0 && (given.state.kind == Kind::Late) != given.late {
            fed.refusal = Some(Refusal::of(KIND));
        }
        (fed, room)
    }),
    ("the refused one counted", |given| {
        let (mut fed, room) = given.first(usize::MAX);
        fed.accepted += u64::from(fed.refusal.is_some());
        (fed, room)
    }),
    ("the state before the last accepted one", |given| {
        let (mut fed, room) = given.first(usize::MAX);
        if fed.refusal.is_some() {
            let before = given.first(fed.accepted.saturating_sub(1) as usize);
            fed.state = before.0.state;
        }
        (fed, room)
    }),
    ("the last one left out", |given| {
        given.first(given.asked().saturating_sub(1))
    }),
    ("no more than 128", |given| given.first(128)),
    ("no more than C + 16", |given| {
        given.first(given.state.base.min(512) as usize + 16)
    }),
    ("different numbers refused", |given| {
        let (mut fed, room) = given.first(usize::MAX);
        if given.late && given.ticks.len() != given.values.len() {
            fed.refusal = Some(Refusal::of(KIND));
        }
        (fed, room)
    }),
    ("of equal merges the last", |given| {
        given.merged(|table| {
            let key = |first: &usize| {
                let union = table[*first].union(&table[first + 1]);
                (union.spread(), given.edition().weight(&union))
            };
            let firsts = (0..table.len() - 1).rev();
            firsts.min_by_key(key).unwrap()
        })
    }),
    ("always in the first edition", |given| {
        given.merged(|table| rule::cheapest_neighbours(Edition::First, table).unwrap())
    }),
    ("always in the second edition", |given| {
        given.merged(|table| rule::cheapest_neighbours(Edition::Second, table).unwrap())
    }),
    // Where the last bucket grows by none, another merge may cost as little or less, and comes first.
    (
        "into the last bucket wherever that holds the value",
        |given| {
            given.merged(|table| {
                let [last, new] = [2, 1].map(|back| table[table.len() - back]);
                match last.union(&new).spread() == last.spread() {
                    true => table.len() - 2,
                    false => rule::cheapest_neighbours(given.edition(), table).unwrap(),
                }
            })
        },
    ),
];

/// So many of the calls that are looked at must tell each wrong way from the right one.
const TOLD_APART: usize = 30;

#[test]
fn the_script_tells_wrong_ways_apart() {
    let script = scripts::of_name("many").unwrap();
    let mut session = Session::new();
    let mut differences = [0; WRONG.len()];
    let mut turn = 0;
    for line in script.text.lines() {
        let Some(command) = Command::of_line(line).unwrap() else {
            continue;
        };
        let (state, room) = (session.state, session.lent_numbers().to_vec());
        let Answer::Fed(fed) = session.obey(&command) else {
            continue;
        };
        turn += 1;
        // Larger tables take their time.
        if turn % 3 > 0 || state.base > 34 {
            continue;
        }
        let given = Given {
            state,
            room,
            ticks: session.lent_ticks(&command),
            values: session.lent_values(&command),
            late: command.word == Word::LateMany,
        };
        let right = (fed, session.lent_numbers().to_vec());
        for (name, way) in RIGHT {
            assert!(way(&given) == right, "{name}: {line}");
        }
        for ((_, way), differs) in WRONG.iter().zip(&mut differences) {
            *differs += usize::from(way(&given) != right);
        }
    }
    for ((name, _), differs) in WRONG.iter().zip(differences) {
        assert!(differs >= TOLD_APART, "{name}: {differs}");
    }
}
