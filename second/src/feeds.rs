//! The sorts of calls of many readings, told from what they are lent and what they answer.

use crate::calls::{Fed, State, RUNS, TAKEN, TICK};
use crate::command::{Command, Word};
use crate::counts::Met;
use crate::session::{Session, READINGS};

/// One call of many readings, the state that it was given, and what it left.
pub struct Feed<'a> {
    pub session: &'a Session,
    pub command: &'a Command,
    pub before: State,
    pub fed: &'a Fed,
}

/// So many calls of each sort, of each length and of each size, at the least.
const OF_EACH_SORT: u64 = 100;
const OF_EACH_LENGTH: u64 = 10;
const OF_EACH_SIZE: u64 = 50;
/// Of each length, and of each size, in the second edition.
const LENGTH_IN_THE_SECOND: u64 = 2;
const SIZE_IN_THE_SECOND: u64 = 20;
/// Of as many readings as C goes into the whole list, and in the second edition.
const OF_EACH_QUOTIENT: u64 = 70;
const QUOTIENT_IN_THE_SECOND: u64 = 30;

/// Every length up to this one is met, and these.
const EVERY_LENGTH: usize = 160;
const LENGTHS: [usize; 11] = [
    255, 256, 509, 510, 511, 512, 1_021, 1_022, 1_023, 1_024, READINGS,
];
/// From this one on a call is a long one.
const LONG: usize = 300;
/// Base limits at which readings in order go past the limit in one call.
const SIZES: [u64; 14] = [1, 2, 3, 4, 30, 31, 32, 33, 34, 128, 230, 231, 511, 512];
/// A stretch is 2C and so many readings more, at most so many.
const STRETCH: u64 = 48;
const LONGEST_STRETCH: u64 = 510;
const STRETCHES: u64 = 3;
/// So many readings of one sort follow each other.
const ROW: usize = 32;

const WORDS: [Word; 2] = [Word::NextMany, Word::LateMany];

/// A sort by its name, and whether a call is of it.
type Sort = (&'static str, fn(&Feed) -> bool);

/// Of either word.
const SORTS: [Sort; 8] = [
    ("of nothing, unsound", |feed| {
        feed.asked() == 0 && feed.session.is_unsound()
    }),
    ("of a long list", |feed| {
        feed.fed.refusal.is_none() && feed.asked() >= LONG
    }),
    ("stopped past the middle", |feed| {
        feed.fed.refusal.is_some() && feed.fed.accepted as usize > feed.asked() / 2
    }),
    ("refused at the last", |feed| {
        feed.fed.refusal.is_some() && feed.asked() > 1 && feed.is_last()
    }),
    ("with a kind above 1 left", |feed| feed.session.kind > 1),
    ("of both ends of the range", |feed| {
        let values = feed.accepted();
        values.contains(&i32::MIN) && values.contains(&i32::MAX)
    }),
    ("of one value over and over", |feed| {
        rows(feed.accepted(), |row| {
            row.iter().all(|&value| value == row[0])
        })
    }),
    ("of a trace that has buckets", |feed| {
        feed.before.used > 1 && feed.fed.accepted > 1
    }),
];

/// Of readings in order.
const IN_ORDER: [Sort; 2] = [
    ("of two values in turn", |feed| {
        let in_turn =
            |row: &[i32]| row[0] != row[1] && row[2..].iter().zip(row).all(|(a, b)| a == b);
        rows(feed.accepted(), in_turn)
    }),
    ("up to the last tick and no further", |feed| {
        feed.fed.refusal.is_none() && feed.asked() > 1 && feed.fed.state.readings == 1 << 24
    }),
];

/// Of late readings.
const LATE: [Sort; 4] = [
    ("of more ticks than values", |feed| {
        feed.ticks() > feed.values()
    }),
    ("of more values than ticks", |feed| {
        feed.ticks() < feed.values()
    }),
    ("of ticks and no values", |feed| {
        feed.ticks() > 0 && feed.values() == 0
    }),
    ("of values and no ticks", |feed| {
        feed.ticks() == 0 && feed.values() > 0
    }),
];

fn rows(values: &[i32], is: impl FnMut(&[i32]) -> bool) -> bool {
    values.chunks_exact(ROW).any(is)
}

fn sorts(word: Word) -> impl Iterator<Item = &'static Sort> {
    let own: &[Sort] = match word {
        Word::NextMany => &IN_ORDER,
        _ => &LATE,
    };
    SORTS.iter().chain(own)
}

impl Feed<'_> {
    fn values(&self) -> usize {
        self.session.lent_values(self.command).len()
    }

    fn ticks(&self) -> usize {
        self.session.lent_ticks(self.command).len()
    }

    /// How many readings there are to take.
    pub fn asked(&self) -> usize {
        match self.command.word {
            Word::NextMany => self.values(),
            _ => self.values().min(self.ticks()),
        }
    }

    fn accepted(&self) -> &[i32] {
        &self.session.lent_values(self.command)[..self.fed.accepted as usize]
    }

    /// Whether the one after the accepted ones is the last.
    fn is_last(&self) -> bool {
        self.fed.accepted as usize + 1 == self.asked()
    }

    /// What the call meets, and how often.
    pub fn met(&self) -> Met {
        let word = self.command.word;
        let mut met = Met::new();
        met.insert(readings(word), self.fed.accepted);
        let second = self.fed.state.edition == 2;
        let mut count = |what: String| *met.entry(what).or_default() += 1;
        for (name, _) in sorts(word).filter(|(_, is)| is(self)) {
            count(of_sort(word, name));
        }
        match self.fed.refusal {
            Some(refusal) if self.fed.accepted > 0 => count(after_some(word, refusal.number)),
            Some(_) => {}
            None => {
                let mut sorts = Vec::new();
                if self.asked() <= EVERY_LENGTH || LENGTHS.contains(&self.asked()) {
                    sorts.push(of_length(word, self.asked()));
                }
                if word == Word::NextMany {
                    sorts.extend(self.sized());
                }
                let again = sorts
                    .iter()
                    .filter(|_| second)
                    .map(|sort| in_the_second(sort));
                again.for_each(&mut count);
                sorts.into_iter().for_each(count);
            }
        }
        met
    }

    /// By how many readings there are beside the base limit.
    fn sized(&self) -> Vec<String> {
        let base = self.fed.state.base;
        let mut sorts = Vec::new();
        if self.fed.accepted == 0 {
            return sorts;
        }
        let sized = SIZES.contains(&base);
        if sized && self.before.used + self.fed.accepted > base + 1 {
            sorts.push(past(base));
        }
        for (beside, more) in BESIDE {
            let length = self.fed.accepted.checked_add_signed(-more);
            let is_times = |times: &u64| sized && length == Some(times * stretch(base));
            let times = (1..=STRETCHES).find(is_times);
            sorts.extend(times.map(|times| stretches(times, beside)));
            if length == Some(quotient(base)) {
                sorts.push(quotients(beside));
            }
        }
        sorts
    }
}

const BESIDE: [(&str, i64); 3] = [("", 0), (", one less", -1), (", one more", 1)];

/// About twice as many readings as there may be buckets.
pub fn stretch(base: u64) -> u64 {
    (2 * base + STRETCH).min(LONGEST_STRETCH)
}

/// The times that C goes into the whole list, rounded down.
pub fn quotient(base: u64) -> u64 {
    READINGS as u64 / base
}

fn readings(word: Word) -> String {
    format!("{}: readings accepted", word.text())
}

fn of_sort(word: Word, name: &str) -> String {
    format!("{}: {name}", word.text())
}

fn of_length(word: Word, length: usize) -> String {
    format!("{}: {length} readings", word.text())
}

fn after_some(word: Word, refusal: u32) -> String {
    format!("{}: refused {refusal} after some", word.text())
}

fn in_the_second(sort: &str) -> String {
    format!("{sort} in edition 2")
}

fn past(base: u64) -> String {
    format!("nextmany: past the limit at C {base}")
}

fn stretches(times: u64, beside: &str) -> String {
    format!("nextmany: {times} stretches of readings{beside}")
}

fn quotients(beside: &str) -> String {
    format!("nextmany: as many readings as C goes into 4096{beside}")
}

/// How often each sort must be met.
pub fn wanted() -> Met {
    let mut wanted = Met::new();
    for word in WORDS {
        for (name, _) in sorts(word) {
            wanted.insert(of_sort(word, name), OF_EACH_SORT);
        }
        for length in (0..=EVERY_LENGTH).chain(LENGTHS) {
            let length = of_length(word, length);
            wanted.insert(in_the_second(&length), LENGTH_IN_THE_SECOND);
            wanted.insert(length, OF_EACH_LENGTH);
        }
    }
    wanted.insert(after_some(Word::NextMany, TICK), OF_EACH_SORT);
    for refusal in [TICK, RUNS, TAKEN] {
        wanted.insert(after_some(Word::LateMany, refusal), OF_EACH_SORT);
    }
    let mut sizes: Vec<String> = SIZES.map(past).to_vec();
    for times in 1..=STRETCHES {
        sizes.extend(BESIDE.map(|(beside, _)| stretches(times, beside)));
    }
    for size in sizes {
        wanted.insert(in_the_second(&size), SIZE_IN_THE_SECOND);
        wanted.insert(size, OF_EACH_SIZE);
    }
    for (beside, _) in BESIDE {
        wanted.insert(in_the_second(&quotients(beside)), QUOTIENT_IN_THE_SECOND);
        wanted.insert(quotients(beside), OF_EACH_QUOTIENT);
    }
    wanted.insert(readings(Word::NextMany), 300_000);
    wanted.insert(readings(Word::LateMany), 100_000);
    wanted
}
