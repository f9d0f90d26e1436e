//! What an obeyed script meets, and how much of it all the scripts together must meet.

use crate::calls::{
    needed_numbers, Size, State, Tally, LAST_CALL_REFUSAL, LENGTH, RECORD, RECORD_BYTES, UNSOUND,
};
use crate::clauses::{self, CLAUSES, EDITION_CLAUSE};
use crate::command::{Command, Name, Word};
use crate::editions::{self, Watch};
use crate::feeds::{self, Feed};
use crate::pictures::{self, Drawing, Drawn};
use crate::recordings;
use crate::rule::Kind;
use crate::searches::{Search, SORTS};
use crate::session::{kind_of, size_of, Answer, Session};
use crate::sizes::{self, Call};
use std::collections::BTreeMap;

/// How often each thing was met, by its name.
pub type Met = BTreeMap<String, u64>;

/// The most numbers that a trace needs, and the most records that one saves.
const MOST_NUMBERS: usize = 3_076;
const MOST_RECORDS: usize = 768;
/// What a clause of soundness must be met alone, at the least.
const ALONE: u64 = 200;
/// So many searches of each sort, at the least.
const OF_EACH_SORT: u64 = 100;

/// Settings of which 32 bits do not hold all that may be named.
const WIDE: [Name; 5] = [Name::Kind, Name::Size, Name::Gaps, Name::By, Name::Edition];

/// Numbers other than 0 that a replay leaves.
const BEHIND: &str = "replay with numbers behind the needed slots";
const LEFT_BY_7: &str = "replay refused 7 over numbers";

#[derive(Default)]
pub struct Counts {
    by_answer: [[u64; LAST_CALL_REFUSAL as usize + 1]; Word::Error as usize + 1],
    alone: [u64; CLAUSES.len()],
    heading: String,
    met: Met,
    tally: Tally,
    state: State,
    opened: Option<Size>,
    drawn: Option<Drawn>,
    watch: Watch,
}

impl Counts {
    pub fn heading(&mut self, line: &str) {
        self.heading = line.to_string();
    }

    /// One command, and the session as it finds it.
    pub fn before(&mut self, session: &Session, command: &Command) {
        self.watch.before(session, command);
    }

    /// One command, and the session as it left it.
    pub fn after(&mut self, session: &Session, command: &Command, answer: &Answer) {
        let before = std::mem::replace(&mut self.tally, session.tally);
        let state = std::mem::replace(&mut self.state, session.state);
        if !command.word.is_call() {
            return self.watch.changed(command.word);
        }
        if !self.heading.is_empty() {
            *self.met.entry(self.heading.clone()).or_default() += 1;
        }
        let refusal = answer.refusal();
        let number = refusal.map_or(0, |refusal| refusal.number);
        self.by_answer[command.word as usize][number as usize] += 1;
        match command.word {
            Word::Level | Word::Error => return self.bucket(command),
            Word::Open | Word::Load => {
                self.settings(command);
                if refusal.is_some_and(|given| given.number == RECORD && given.place > 1_023) {
                    self.count("place above 1023");
                }
                if command.word == Word::Load && session.length > MOST_RECORDS * RECORD_BYTES {
                    self.count("file above 768 records");
                }
            }
            Word::Replay => {
                self.settings(command);
                self.replayed(session, number);
            }
            Word::NextTold | Word::LateTold => self.told(&before, &session.tally),
            Word::NextMany | Word::LateMany => {
                if self.fed(session, command, state, answer) == 0 {
                    return;
                }
            }
            Word::Lookup => self.looked_up(answer),
            Word::Over => self.searched(session, command, answer),
            Word::Picture => self.drawn(session, command, answer),
            _ => {}
        }
        self.told_apart(session, command, state, answer);
        if session.lent > MOST_NUMBERS {
            self.count("room above 3076 numbers");
        }
        if opens(command.word) && refusal.is_some() {
            return;
        }
        let broken = clauses::broken(session.state, session.lent_numbers());
        assert_eq!(number == UNSOUND, broken.contains(&true), "{command:?}");
        if let Some(clause) = clauses::alone(&broken) {
            self.alone[clause] += 1;
            if clause == EDITION_CLAUSE {
                self.count(&editions::for_the_edition_alone(command.word));
            }
        }
    }

    fn count(&mut self, what: &str) {
        *self.met.entry(what.to_string()).or_default() += 1;
    }

    /// By what B and C are told apart, and by what the editions are.
    fn told_apart(&mut self, session: &Session, command: &Command, before: State, answer: &Answer) {
        let refusal = answer.refusal().map_or(0, |refusal| refusal.number);
        let opens = opens(command.word);
        let given = |name| command.given(name).filter(|_| opens);
        let call = Call {
            command,
            before,
            after: session.state,
            refusal,
            lent: session.lent,
            kind: match command.word {
                Word::Replay => Kind::Late,
                _ => given(Name::Kind).map_or(before.kind, kind_of),
            },
            gaps: given(Name::Gaps).unwrap_or(before.gaps),
            opened: self.opened,
        };
        let of_editions = self.watch.sorts(session, &call, answer);
        for sort in sizes::sorts(&call).into_iter().chain(of_editions) {
            *self.met.entry(sort).or_default() += 1;
        }
        if opens && refusal == 0 {
            self.opened = Some(size_of(command));
        }
    }

    /// Answers how many readings there were: of none nothing is asked, not even whether the trace is sound.
    fn fed(
        &mut self,
        session: &Session,
        command: &Command,
        before: State,
        answer: &Answer,
    ) -> usize {
        let Answer::Fed(fed) = answer else {
            return 0;
        };
        let feed = Feed {
            session,
            command,
            before,
            fed,
        };
        for (what, times) in feed.met() {
            *self.met.entry(what).or_default() += times;
        }
        feed.asked()
    }

    fn replayed(&mut self, session: &Session, refusal: u32) {
        let State { base, gaps, .. } = session.state;
        let written = match refusal {
            0 => needed_numbers(Kind::Late, base, gaps),
            _ => 0,
        };
        // So that whoever writes them is seen.
        if session.lent_numbers()[written..]
            .iter()
            .any(|&number| number != 0)
        {
            match refusal {
                0 => self.count(BEHIND),
                LENGTH => self.count(LEFT_BY_7),
                _ => {}
            }
        }
        for (what, times) in recordings::met(session.state, refusal, session.lent_file()) {
            *self.met.entry(what).or_default() += times;
        }
    }

    /// Settings that 32 bits do not hold.
    fn settings(&mut self, command: &Command) {
        for name in WIDE {
            if command.given(name) > Some(u64::from(u32::MAX)) {
                self.count(&format!("{} wide {}", command.word.text(), name.text()));
            }
        }
    }

    fn bucket(&mut self, command: &Command) {
        let least = command.number(Name::Least) as i32;
        let largest = command.number(Name::Largest) as i32;
        if least == i32::MIN {
            self.count("bucket at the lower end");
        }
        if largest == i32::MAX {
            self.count("bucket at the upper end");
        }
        if least == i32::MIN && largest == i32::MAX {
            self.count("bucket of the whole range");
        }
        if command.word == Word::Level {
            self.sum("level", i64::from(least), i64::from(largest));
        }
    }

    fn looked_up(&mut self, answer: &Answer) {
        if let Answer::Found(Ok(held)) = answer {
            self.sum("lookup", held.least, held.largest);
        }
    }

    fn searched(&mut self, session: &Session, command: &Command, answer: &Answer) {
        if let Answer::Over(answer) = answer {
            let search = Search::new(session, command, *answer);
            for (name, _) in SORTS.iter().filter(|(_, is)| is(&search)) {
                self.count(name);
            }
        }
    }

    fn drawn(&mut self, session: &Session, command: &Command, answer: &Answer) {
        if let Answer::Wrote(answer) = answer {
            let drawing = Drawing::new(session, command, *answer, self.drawn.take());
            for (what, times) in drawing.met() {
                *self.met.entry(what).or_default() += times;
            }
            self.drawn = drawing.drawn();
        }
    }

    /// Levels of negative odd sums are where rounding down is not cutting toward zero, those of positive ones where it is.
    fn sum(&mut self, what: &str, least: i64, largest: i64) {
        let sum = least + largest;
        if sum % 2 != 0 {
            let sign = if sum < 0 { "negative" } else { "positive" };
            self.count(&format!("{what} of a {sign} odd sum"));
        }
    }

    fn told(&mut self, before: &Tally, after: &Tally) {
        let counts = [
            ("accepted", before.accepted, after.accepted),
            ("refused", before.refused, after.refused),
            ("merges", before.merges, after.merges),
        ];
        for (name, before, after) in counts {
            if after == u32::MAX {
                self.count(&format!("tally {name} at its stop"));
            }
            if name == "merges" && after < u32::MAX {
                self.count(&format!("told reading of {} merges", after - before));
            }
        }
    }

    /// Everything by its name.
    pub fn met(&self) -> Met {
        let mut met = self.met.clone();
        for &word in Word::ALL.iter().filter(|word| word.is_call()) {
            for (number, &times) in self.by_answer[word as usize].iter().enumerate() {
                let name = answer_name(word, number as u32);
                met.insert(name, times);
                *met.entry("calls".to_string()).or_default() += times;
                if number > 0 {
                    *met.entry("calls refused".to_string()).or_default() += times;
                }
            }
        }
        for (clause, &times) in CLAUSES.iter().zip(&self.alone) {
            met.insert(format!("alone broken: {clause}"), times);
        }
        met.retain(|_, times| *times > 0);
        met
    }
}

/// Whether the call has settings and looks at no trace.
fn opens(word: Word) -> bool {
    matches!(word, Word::Open | Word::Load | Word::Replay)
}

fn answer_name(word: Word, number: u32) -> String {
    match number {
        0 => format!("{} accepted", word.text()),
        _ => format!("{} refused {number}", word.text()),
    }
}

/// The refusals that each call can give.
pub const REFUSALS: [(Word, &[u32]); 17] = [
    (Word::Open, &[1, 2, 3, 16]),
    (Word::Next, &[4, 5, 6]),
    (Word::Late, &[4, 5, 6, 9, 11]),
    (Word::NextTold, &[4, 5, 6]),
    (Word::LateTold, &[4, 5, 6, 9, 11]),
    (Word::NextMany, &[4, 5, 6]),
    (Word::LateMany, &[4, 5, 6, 9, 11]),
    (Word::Lookup, &[4, 6, 12]),
    (Word::Over, &[4, 6]),
    (Word::Worst, &[4]),
    (Word::Row, &[4, 13]),
    (Word::Save, &[4, 13]),
    (Word::Picture, &[4, 13, 15]),
    (Word::Load, &[1, 2, 3, 7, 8, 9, 10, 16]),
    (Word::Replay, &[1, 2, 3, 7, 16]),
    (Word::Level, &[]),
    (Word::Error, &[]),
];

/// What all the scripts of the gate together must meet, and how often at the least.
pub fn wanted() -> Met {
    let mut wanted = Met::new();
    for (word, numbers) in REFUSALS {
        wanted.insert(answer_name(word, 0), 200);
        for &number in numbers {
            wanted.insert(answer_name(word, number), 100);
        }
    }
    for clause in CLAUSES {
        wanted.insert(format!("alone broken: {clause}"), ALONE);
    }
    for (sort, _) in SORTS {
        wanted.insert(sort.to_string(), OF_EACH_SORT);
    }
    for word in [Word::Open, Word::Load, Word::Replay] {
        for name in WIDE {
            wanted.insert(format!("{} wide {}", word.text(), name.text()), 100);
        }
    }
    for (name, times) in [
        (BEHIND, 200),
        (LEFT_BY_7, 200),
        ("place above 1023", 200),
        ("file above 768 records", 200),
        ("room above 3076 numbers", 200),
        ("bucket at the lower end", 50),
        ("bucket at the upper end", 50),
        ("bucket of the whole range", 2),
        ("level of a negative odd sum", 500),
        ("level of a positive odd sum", 500),
        ("lookup of a negative odd sum", 500),
        ("lookup of a positive odd sum", 500),
        ("tally accepted at its stop", 50),
        ("tally refused at its stop", 50),
        ("tally merges at its stop", 50),
        ("told reading of 0 merges", 100),
        ("told reading of 1 merges", 100),
        ("told reading of 2 merges", 20),
    ] {
        wanted.insert(name.to_string(), times);
    }
    wanted.extend(sizes::wanted());
    wanted.extend(editions::wanted());
    wanted.extend(recordings::wanted());
    wanted.extend(feeds::wanted());
    wanted.extend(pictures::wanted());
    wanted.extend(crate::scripts::wanted_headings());
    wanted
}

/// What is wanted and not met often enough, a line each.
pub fn missing(met: &Met) -> Vec<String> {
    let short = |(name, &times): (&String, &u64)| {
        let there = met.get(name).copied().unwrap_or(0);
        (there < times).then(|| format!("{name}: {there} where {times} are wanted"))
    };
    let mut lines: Vec<String> = wanted().iter().filter_map(short).collect();
    let loads: u64 = met
        .iter()
        .filter(|(name, _)| name.starts_with("load accepted") || name.starts_with("load refused"))
        .map(|(_, times)| times)
        .sum();
    if loads < 350_000 {
        lines.push(format!("loads: {loads} where 350000 are wanted"));
    }
    lines
}
