//! The sorts of calls that the editions are told apart by, told from the answers and from the buckets before and after them.

use crate::calls::{self, State, EDITION, UNSOUND};
use crate::command::{Command, Name, Word};
use crate::counts::{Met, REFUSALS};
use crate::feeds;
use crate::made::NO_EDITIONS;
use crate::rule::{self, Bucket, Edition, Kind, EDITIONS};
use crate::session::{size_of, Answer, Session, PLACES};
use crate::sizes::{kind_name, kinds, Call, KINDS};
use crate::told::checksum;

/// So many calls of each sort, at the least.
const OF_EACH_SORT: u64 = 100;
/// So many tables that differ between the editions, and so many that do not, at the least.
const OF_EACH_TABLE: u64 = 1_000;
const OF_EACH_REPLAYED: u64 = 40;

/// So many readings times C, at the most, are taken once more in the other edition; more would take their time.
const MOST_WORK: u64 = 50_000;

/// Base limits whose tables merge in each edition.
const MERGED: [u64; 6] = [1, 2, 3, 33, 64, 512];

const WORDS: [Word; 3] = [Word::Open, Word::Load, Word::Replay];
const FEEDING: [Word; 6] = [
    Word::Next,
    Word::Late,
    Word::NextTold,
    Word::LateTold,
    Word::NextMany,
    Word::LateMany,
];

/// What the calls before have left of the traces.
#[derive(Default)]
pub struct Watch {
    /// The slots in use before the call at hand, where it is one of readings.
    table: Vec<Bucket>,
    now: Option<Followed>,
    /// The trace that was opened before the one at hand.
    last: Option<Followed>,
    replayed: Option<(State, u64, u64)>,
    /// Whether the trace at hand was loaded in another edition than it was saved in.
    moved: bool,
}

/// A trace from its opening on: by what it was opened, and after each call of readings what was fed and what it left.
struct Followed {
    opened: State,
    steps: Vec<(u64, u64)>,
}

impl Watch {
    /// The command is obeyed next.
    pub fn before(&mut self, session: &Session, command: &Command) {
        self.table.clear();
        if FEEDING.contains(&command.word) && session.state.used <= PLACES as u64 {
            self.table.extend(slots(session));
        }
    }

    /// The names of all sorts that the call is of.
    pub fn sorts(&mut self, session: &Session, call: &Call, answer: &Answer) -> Vec<String> {
        match call.command.word {
            word if WORDS.contains(&word) => {
                let mut sorts = of_settings(session, call);
                sorts.extend(self.opened(session, call));
                sorts
            }
            word if FEEDING.contains(&word) => match answer {
                Answer::Fed(fed) if fed.accepted > 0 => self.fed(session, call, fed.accepted),
                Answer::State(Ok(_)) => self.fed(session, call, 1),
                _ => of_state(call),
            },
            _ => of_state(call),
        }
    }

    /// What a command changes that is no call; behind it the trace at hand is another one.
    pub fn changed(&mut self, word: Word) {
        if matches!(word, Word::State | Word::Set | Word::Slot | Word::Fill) {
            self.now = None;
            self.moved = false;
        }
    }

    /// The sorts of an accepted open, load or replay.
    fn opened(&mut self, session: &Session, call: &Call) -> Option<String> {
        if call.refusal != 0 {
            return None;
        }
        let (before, after) = (call.before, call.after);
        self.moved = false;
        let now = self.now.take();
        match call.command.word {
            Word::Open => {
                self.last = now;
                let steps = Vec::new();
                self.now = Some(Followed {
                    opened: after,
                    steps,
                });
                None
            }
            Word::Load => {
                let edition = Edition::of_number(after.edition)?;
                let same = State {
                    edition: edition.other().number(),
                    ..after
                };
                self.moved = before == same && after.used > 0;
                self.moved.then(|| moved(edition, after.kind))
            }
            _ => {
                let file = session.lent_file();
                let file = checksum(file.len(), file.iter().copied().map(u64::from));
                let table = sum(slots(session));
                let last = self.replayed.replace((after, file, table));
                let (state, same_file, same_table) = last?;
                let same = State {
                    edition: state.edition,
                    used: state.used,
                    ..after
                };
                let paired = same == state && state.edition != after.edition && same_file == file;
                paired.then(|| replayed(same_table == table))
            }
        }
    }

    /// The sorts of readings of which so many were accepted.
    fn fed(&mut self, session: &Session, call: &Call, accepted: u64) -> Vec<String> {
        let word = call.command.word;
        let (state, kind) = (call.after, call.after.kind);
        let edition = Edition::of_number(state.edition).expect("of a sound state");
        let readings = readings(session, call, accepted);
        let mut sorts = of_state(call);
        let differs = self.differs(session, edition, &readings);
        sorts.extend(differs.then(|| otherwise_by(word, edition)));
        match word {
            Word::NextMany => {
                let worth = edition == Edition::Second && is_worth(state.base, accepted);
                sorts.extend((worth && differs).then(worth_otherwise));
            }
            Word::LateMany => {}
            _ => {
                let (tick, value) = readings[0];
                let tick = tick.unwrap_or_else(|| next_tick(&self.table));
                sorts.extend(self.merged(edition, state, tick, value, differs));
            }
        }
        if self.moved && differs {
            sorts.push(gone_on_otherwise(edition, kind));
        }
        sorts.extend(self.paired(session, state, &readings));
        sorts
    }

    /// Whether the same readings leave another table in the other edition.
    fn differs(
        &self,
        session: &Session,
        edition: Edition,
        readings: &[(Option<u64>, i64)],
    ) -> bool {
        let State {
            kind, base, used, ..
        } = session.state;
        let count = readings.len() as u64;
        let merged = used < self.table.len() as u64 + count;
        if !merged || count * base > MOST_WORK {
            return false;
        }
        let mut other = self.table.clone();
        for &(tick, value) in readings {
            let tick = tick.unwrap_or_else(|| next_tick(&other));
            rule::reading(edition.other(), kind, base, &mut other, tick, value);
        }
        !other.into_iter().eq(slots(session))
    }

    /// The sorts of one reading by how each of its merges is chosen.
    fn merged(
        &self,
        edition: Edition,
        state: State,
        tick: u64,
        value: i64,
        differs: bool,
    ) -> Vec<String> {
        let kind = state.kind;
        let mut table = self.table.clone();
        rule::insertion(&mut table, tick, value);
        let mut sorts = Vec::new();
        let mut merges = 0;
        let mut second_by_count = false;
        while table.len() as u64 > state.used {
            let chosen = rule::cheapest_neighbours(edition, &table).expect("one was merged");
            let whys = whys(edition, &table, chosen);
            second_by_count = merges == 1 && whys.contains(&BY_COUNT);
            sorts.extend(whys.into_iter().map(|why| by(edition, kind, why)));
            rule::merge(&mut table, chosen);
            merges += 1;
        }
        if merges > 0 && MERGED.contains(&state.base) {
            sorts.push(merged_at(edition, kind, state.base));
        }
        sorts.extend(differs.then(|| otherwise(edition, kind)));
        if merges == 2 {
            sorts.push(twice(edition));
            sorts.extend(differs.then(|| twice_otherwise(edition)));
            sorts.extend(second_by_count.then(second_by_the_count));
        }
        sorts
    }

    /// Whether the trace opened before, in the other edition, had the same table after the same readings; only where something was merged.
    fn paired(
        &mut self,
        session: &Session,
        state: State,
        readings: &[(Option<u64>, i64)],
    ) -> Option<String> {
        let now = self.now.as_mut()?;
        let numbers = readings.iter().flat_map(|&(tick, value)| {
            let tick = tick.unwrap_or(u64::MAX);
            [tick, value as u64]
        });
        let fed = checksum(2 * readings.len(), numbers);
        // So that readings before it count too.
        let before = now.steps.last().map_or(0, |&(fed, _)| fed);
        let fed = checksum(2, [before, fed].into_iter());
        let table = sum(slots(session));
        now.steps.push((fed, table));
        let last = self.last.as_ref()?;
        let same = State {
            edition: last.opened.edition,
            ..now.opened
        };
        let other = last.steps.get(now.steps.len() - 1)?;
        let paired = same == last.opened && same != now.opened && other.0 == fed;
        (paired && state.readings > state.used).then(|| tables(other.1 == table, state.kind))
    }
}

/// The slots that the state says are in use, as far as the room goes.
fn slots(session: &Session) -> impl Iterator<Item = Bucket> + '_ {
    let used = session.state.used as usize;
    let bucket = |slot: &[i64]| Bucket {
        start: slot[0] as u64,
        count: slot[1] as u64,
        least: slot[2],
        largest: slot[3],
    };
    let slots = session.lent_numbers().chunks_exact(calls::SLOT);
    slots.take(used).map(bucket)
}

fn next_tick(table: &[Bucket]) -> u64 {
    table.last().map_or(0, Bucket::end)
}

fn sum(table: impl Iterator<Item = Bucket>) -> u64 {
    let numbers = |bucket: Bucket| {
        let [least, largest] = [bucket.least, bucket.largest].map(|value| value as u64);
        [bucket.start, bucket.count, least, largest]
    };
    checksum(0, table.flat_map(numbers))
}

/// The accepted readings, with their ticks where they are named.
fn readings(session: &Session, call: &Call, accepted: u64) -> Vec<(Option<u64>, i64)> {
    let command = call.command;
    let values = session.lent_values(command).iter().copied().map(i64::from);
    let ticks = session.lent_ticks(command).iter().copied().map(u64::from);
    let value = i64::from(command.number(Name::Value) as i32);
    let tick = u64::from(command.number(Name::Tick) as u32);
    match command.word {
        Word::Next | Word::NextTold => vec![(None, value)],
        Word::Late | Word::LateTold => vec![(Some(tick), value)],
        Word::NextMany => values.take(accepted as usize).map(|v| (None, v)).collect(),
        _ => {
            let both = ticks.zip(values).take(accepted as usize);
            both.map(|(tick, value)| (Some(tick), value)).collect()
        }
    }
}

const ALONE: &str = "by the spread alone";
const AGAINST: &str = "by the spread against the count";
const BY_START: &str = "by the start among equal spreads";
const START_AGAINST: &str = "by the start against the count";
const BY_COUNT: &str = "by the count";
const BOTH: &str = "by the count, and the start would do";
const COUNTS_TIE: &str = "by the start among equal counts";
const BEHIND: &str = "by the start among equal counts, behind one of more ticks";

/// By what a merge can be chosen in an edition.
fn reasons(edition: Edition) -> &'static [&'static str] {
    match edition {
        Edition::First => &[ALONE, AGAINST, BY_START, START_AGAINST],
        Edition::Second => &[ALONE, AGAINST, BY_COUNT, BOTH, COUNTS_TIE, BEHIND],
    }
}

/// By what this merge is chosen.
fn whys(edition: Edition, table: &[Bucket], chosen: usize) -> Vec<&'static str> {
    let union = table[chosen].union(&table[chosen + 1]);
    let [mut equal, mut fewest] = [0; 2];
    let mut first = true;
    let [mut fewer, mut against] = [false; 2];
    for at in rule::pairs(table) {
        let other = table[at].union(&table[at + 1]);
        if other.spread() == union.spread() {
            equal += 1;
            fewest += u32::from(other.count == union.count);
            fewer |= other.count < union.count;
            first &= at >= chosen;
        } else {
            against |= other.count < union.count;
        }
    }
    let why = match (edition, equal, fewest, first) {
        (_, 1, _, _) => ALONE,
        (Edition::First, ..) => BY_START,
        (Edition::Second, _, 1, false) => BY_COUNT,
        (Edition::Second, _, 1, true) => BOTH,
        (Edition::Second, _, _, true) => COUNTS_TIE,
        (Edition::Second, _, _, false) => BEHIND,
    };
    let mut whys = vec![why];
    whys.extend(against.then_some(AGAINST));
    whys.extend((edition == Edition::First && fewer).then_some(START_AGAINST));
    whys
}

/// The sorts of an open, a load or a replay by what it names.
fn of_settings(session: &Session, call: &Call) -> Vec<String> {
    let (word, command) = (call.command.word, call.command);
    // An accepted one has left the edition that was meant.
    let at_hand = match call.refusal {
        0 => call.after.edition,
        _ => call.before.edition,
    };
    let named = command.given(Name::Edition);
    let edition = named.unwrap_or(at_hand);
    let mut sorts = Vec::new();
    match call.refusal {
        0 => {
            sorts.push(by_good(word, edition, call.kind));
            if named.is_none() {
                sorts.push(unnamed(word, &edition.to_string()));
            }
        }
        EDITION => {
            if NO_EDITIONS.contains(&edition) {
                sorts.push(by_bad(word, edition));
            }
            if named.is_none() {
                sorts.push(unnamed(word, "none"));
            }
            if session.lent_numbers().iter().any(|&number| number != 0) {
                sorts.push(over_numbers(word));
            }
            sorts.push(before(word, otherwise_refused(session, call)));
        }
        number => sorts.extend((edition == 2).then(|| in_the_second(word, number))),
    }
    sorts
}

/// What the call would be refused by, were its edition a good one.
fn otherwise_refused(session: &Session, call: &Call) -> u32 {
    let mut room = session.lent_numbers().to_vec();
    let (size, file) = (size_of(call.command), session.lent_file());
    let refusal = match call.command.word {
        Word::Open => calls::open(1, call.kind, size, call.gaps, &mut room).err(),
        Word::Load => calls::load(1, call.kind, size, call.gaps, file, &mut room).err(),
        _ => calls::replay(1, size, call.gaps, file, &mut room).err(),
    };
    refusal.map_or(0, |refusal| refusal.number)
}

fn of_state(call: &Call) -> Vec<String> {
    let edition = call.before.edition;
    let unsound = call.refusal == UNSOUND && NO_EDITIONS.contains(&edition);
    unsound.then(|| of_none(edition)).into_iter().collect()
}

fn by_good(word: Word, edition: u64, kind: Kind) -> String {
    format!("{} by edition {edition}, {}", word.text(), kind_name(kind))
}

fn by_bad(word: Word, edition: u64) -> String {
    format!("{} by edition {edition}", word.text())
}

fn unnamed(word: Word, at_hand: &str) -> String {
    format!("{} by no edition, {at_hand} at hand", word.text())
}

fn over_numbers(word: Word) -> String {
    format!("{} refused 16 over numbers", word.text())
}

fn before(word: Word, number: u32) -> String {
    match number {
        0 => format!("{} refused 16 alone", word.text()),
        _ => format!("{} refused 16 before {number}", word.text()),
    }
}

/// Refused for something else in the second edition.
fn in_the_second(word: Word, number: u32) -> String {
    format!("{} in edition 2 refused {number}", word.text())
}

fn of_none(edition: u64) -> String {
    format!("state of edition {edition}")
}

/// Of a state whose edition alone is wrong.
pub fn for_the_edition_alone(word: Word) -> String {
    format!("{} refused 4 for the edition alone", word.text())
}

fn moved(edition: Edition, kind: Kind) -> String {
    let edition = edition.number();
    format!(
        "loaded in edition {edition}, saved in the other, {}",
        kind_name(kind)
    )
}

fn gone_on_otherwise(edition: Edition, kind: Kind) -> String {
    let edition = edition.number();
    format!(
        "gone on in edition {edition} otherwise than it was saved in, {}",
        kind_name(kind)
    )
}

fn by(edition: Edition, kind: Kind, why: &str) -> String {
    let edition = edition.number();
    format!("merged in edition {edition}, {}: {why}", kind_name(kind))
}

fn merged_at(edition: Edition, kind: Kind, base: u64) -> String {
    let edition = edition.number();
    format!(
        "merged in edition {edition} at C {base}, {}",
        kind_name(kind)
    )
}

fn otherwise(edition: Edition, kind: Kind) -> String {
    let edition = edition.number();
    format!(
        "merged in edition {edition} otherwise than in the other, {}",
        kind_name(kind)
    )
}

fn twice(edition: Edition) -> String {
    format!("two merges in edition {}", edition.number())
}

fn twice_otherwise(edition: Edition) -> String {
    let edition = edition.number();
    format!("two merges in edition {edition} otherwise than in the other")
}

fn second_by_the_count() -> String {
    "two merges in edition 2, the second by the count".to_string()
}

/// Each word by itself: a told reading merges as one does that is not, and so do many.
fn otherwise_by(word: Word, edition: Edition) -> String {
    let edition = edition.number();
    format!(
        "{} in edition {edition} otherwise than in the other",
        word.text()
    )
}

/// Whether so many readings at one call would go through a scratch in the first edition.
fn is_worth(base: u64, readings: u64) -> bool {
    base != 2 && readings >= feeds::quotient(base).max(16)
}

fn worth_otherwise() -> String {
    "nextmany in edition 2 otherwise than in the other, of 16 and of 4096 / C or more, C not 2"
        .to_string()
}

fn tables(alike: bool, kind: Kind) -> String {
    match alike {
        true => format!("tables alike in both editions, {}", kind_name(kind)),
        false => format!("tables that differ by the edition, {}", kind_name(kind)),
    }
}

fn replayed(alike: bool) -> String {
    match alike {
        true => "tables alike in both editions, replayed".to_string(),
        false => "tables that differ by the edition, replayed".to_string(),
    }
}

/// How often each sort must be met.
pub fn wanted() -> Met {
    let mut sorts = vec![second_by_the_count(), worth_otherwise()];
    for word in WORDS {
        for edition in EDITIONS.map(Edition::number) {
            sorts.extend(kinds(word).iter().map(|&kind| by_good(word, edition, kind)));
            sorts.push(unnamed(word, &edition.to_string()));
        }
        sorts.extend(NO_EDITIONS.map(|edition| by_bad(word, edition)));
        sorts.extend([unnamed(word, "none"), over_numbers(word), before(word, 0)]);
        for &number in refusals(word).iter().filter(|&&number| number != EDITION) {
            sorts.extend([before(word, number), in_the_second(word, number)]);
        }
    }
    sorts.extend(NO_EDITIONS.map(of_none));
    let looking = REFUSALS.iter().filter(|(_, all)| all.contains(&UNSOUND));
    sorts.extend(looking.map(|&(word, _)| for_the_edition_alone(word)));
    for edition in EDITIONS {
        for kind in KINDS {
            sorts.extend([moved(edition, kind), gone_on_otherwise(edition, kind)]);
            sorts.extend(reasons(edition).iter().map(|why| by(edition, kind, why)));
            sorts.extend(MERGED.map(|base| merged_at(edition, kind, base)));
            sorts.push(otherwise(edition, kind));
        }
        sorts.extend([twice(edition), twice_otherwise(edition)]);
        sorts.extend(FEEDING.map(|word| otherwise_by(word, edition)));
    }
    let mut wanted: Met = sorts.into_iter().map(|sort| (sort, OF_EACH_SORT)).collect();
    for alike in [true, false] {
        wanted.extend(KINDS.map(|kind| (tables(alike, kind), OF_EACH_TABLE)));
        wanted.insert(replayed(alike), OF_EACH_REPLAYED);
    }
    wanted
}

fn refusals(word: Word) -> &'static [u32] {
    let found = REFUSALS.iter().find(|(of, _)| *of == word);
    found.map_or(&[], |(_, numbers)| numbers)
}
