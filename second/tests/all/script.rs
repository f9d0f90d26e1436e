//! Scripts try what they are meant to, and are obeyed as they were made.

use crate::sound::is_sound;
use second::calls::{State, Tally};
use second::clauses::{self, CLAUSES};
use second::command::{Command, Word};
use second::counts::{self, Met, REFUSALS};
use second::scripts::{self, chance};
use second::searches::SORTS;
use second::session::{Answer, Session};
use second::{editions, pictures, sizes, told};
use std::collections::BTreeSet;

const CALLS: u64 = 20_000;

#[test]
fn a_script_by_chance_has_its_calls_and_meets_every_refusal() {
    let script = chance::of_seed(1, CALLS);
    assert_eq!(script.calls, CALLS);
    let met = told::obey(script.text.as_bytes(), &mut std::io::sink())
        .unwrap()
        .met();
    assert_eq!(met["calls"], CALLS);
    assert!((CALLS / 3..=CALLS - CALLS / 3).contains(&met["calls refused"]));
    for (word, numbers) in REFUSALS {
        assert!(met[&format!("{} accepted", word.text())] >= 20, "{word:?}");
        for number in numbers {
            let name = format!("{} refused {number}", word.text());
            assert!(met.get(&name).is_some_and(|&times| times >= 5), "{name}");
        }
    }
}

#[test]
fn every_script_is_obeyed_as_it_was_made() {
    let by_name = scripts::NAMES.iter().filter(|&&name| name != "files");
    let by_name = by_name.map(|name| scripts::of_name(name).unwrap());
    for script in by_name.chain([chance::of_seed(2, 5_000)]) {
        let mut session = Session::new();
        let mut calls = 0;
        for line in script.text.lines() {
            let Some(command) = Command::of_line(line).unwrap() else {
                continue;
            };
            session.obey(&command);
            calls += u64::from(command.word.is_call());
        }
        assert_eq!(calls, script.calls);
        assert_eq!(session.fields(), script.session.fields());
        assert_eq!(session.room, script.session.room);
        assert_eq!(session.file, script.session.file);
        assert_eq!(session.ticks, script.session.ticks);
        assert_eq!(session.values, script.session.values);
    }
}

#[test]
fn a_seed_gives_one_script_and_another_seed_another() {
    let script = |seed, calls| chance::of_seed(seed, calls).text;
    let long = script(5, 2_000);
    assert_eq!(long, script(5, 2_000));
    assert_ne!(long, script(6, 2_000));
    assert!(long.starts_with(&script(5, 1_000)));
}

#[test]
fn the_short_script_is_short_and_has_only_the_words_that_are_obeyed() {
    let script = scripts::of_name("short").unwrap();
    assert!(script.text.len() < 65_536);
    let obeyed =
        "open next late nextmany latemany lookup worst save load state room set file byte take reading";
    for line in script.text.lines() {
        let word = line.split(' ').next().unwrap();
        assert!(
            word == "#" || obeyed.split(' ').any(|known| known == word),
            "{line}"
        );
    }
}

#[test]
fn each_clause_is_broken_alone_and_no_clause_where_the_trace_is_sound() {
    let mut alone = [0; CLAUSES.len()];
    for script in [
        scripts::of_name("unsound").unwrap(),
        chance::of_seed(3, 20_000),
    ] {
        let mut session = Session::new();
        for line in script.text.lines() {
            let Some(command) = Command::of_line(line).unwrap() else {
                continue;
            };
            session.obey(&command);
            if !command.word.is_call() {
                let broken = clauses::broken(session.state, session.lent_numbers());
                let sound = is_sound(session.state, session.lent_numbers());
                assert_eq!(sound, !broken.contains(&true));
                if let Some(clause) = clauses::alone(&broken) {
                    alone[clause] += 1;
                }
            }
        }
    }
    assert!(alone.iter().all(|&times| times >= 10), "{alone:?}");
}

#[test]
fn a_fresh_tally_of_an_opened_trace_has_a_merge_for_each_reading_without_a_bucket() {
    let script = scripts::of_name("sessions").unwrap();
    let mut session = Session::new();
    let mut fresh = false;
    let mut balanced = 0;
    for line in script.text.lines() {
        let Some(command) = Command::of_line(line).unwrap() else {
            continue;
        };
        session.obey(&command);
        match command.word {
            Word::Tally => fresh = session.tally == Tally::default(),
            // A loaded trace has a bucket of readings that were not counted.
            Word::Load => fresh = false,
            Word::NextTold | Word::LateTold if fresh => {
                let Tally {
                    accepted, merges, ..
                } = session.tally;
                assert_eq!(u64::from(accepted - merges), session.state.used, "{line}");
                balanced += 1;
            }
            _ => {}
        }
    }
    assert!(balanced >= 1_000, "{balanced}");
}

/// The sorts that one search of the late table (0, 3, -1 to 4), (3, 2, 8 to 9), (7, 2, 2 to 9) is counted as.
fn sorts_of(search: &str) -> Vec<String> {
    let slots = "slot start=0 count=3 least=-1 largest=4\nslot at=1 start=3 count=2 least=8 largest=9\nslot at=2 start=7 count=2 least=2 largest=9";
    let script = format!("room numbers=20\nopen kind=1 size=1 gaps=2 edition=1\n{slots}\nstate used=3 runs=2 readings=7\n{search}\n");
    let counts = told::obey(script.as_bytes(), &mut std::io::sink()).unwrap();
    let sort = |name: &String| name.strip_prefix("search: ").map(String::from);
    counts.met().keys().filter_map(sort).collect()
}

#[test]
fn searches_are_counted_as_what_they_are() {
    for (search, sorts) in [
        (
            "over first=0 last=8 bar=5",
            &[
                "a hit",
                "a hit late",
                "bar one above the largest of one passed",
                "hit at a middle bucket",
                "more hits behind the first",
            ][..],
        ),
        (
            "over first=5 last=7 bar=9",
            &[
                "a hit",
                "a hit late",
                "bar at the hit's largest",
                "begins in a gap and hits",
                "ends inside the hit bucket",
                "hit at the last bucket of three or more",
                "hit behind one over before the range",
            ],
        ),
        (
            "over first=1 last=1 bar=4",
            &[
                "a hit",
                "a hit late",
                "bar at the hit's largest",
                "begins and ends inside the hit bucket",
                "begins inside the hit bucket",
                "ends inside the hit bucket",
                "hit at the first bucket of three or more",
                "hit by one tick",
            ],
        ),
        (
            "over first=5 last=6 bar=9",
            &[
                "none",
                "none before one over behind the range",
                "wholly in a gap",
                "wholly in a gap between two over the bar",
            ],
        ),
        (
            "over first=2 last=1 bar=4",
            &[
                "none",
                "of an empty range",
                "of an empty range in one over the bar",
            ],
        ),
        (
            "over first=9 last=9 bar=2147483647",
            &["above the last tick held", "bar at the upper end", "none"],
        ),
        ("over first=16777216 last=5", &["first tick alone too far"]),
        ("over last=16777216", &["last tick alone too far"]),
        (
            "state used=2\nover last=16777216",
            &["unsound, and a tick too far"],
        ),
        ("state used=2\nover last=1", &[]),
    ] {
        assert_eq!(sorts_of(search), sorts, "{search}");
    }
}

#[test]
fn the_script_of_searches_meets_every_sort() {
    let script = scripts::of_name("search").unwrap();
    let met = told::obey(script.text.as_bytes(), &mut std::io::sink())
        .unwrap()
        .met();
    for (sort, _) in SORTS {
        let times = met.get(sort).copied().unwrap_or(0);
        assert!(times >= 100, "{sort}: {times}");
    }
}

/// What the script meets of the sorts that B and C are told apart by.
fn sizes_of(script: &str) -> Met {
    let counts = told::obey(script.as_bytes(), &mut std::io::sink()).unwrap();
    let mut met = counts.met();
    met.retain(|name, _| sizes::wanted().contains_key(name));
    met
}

#[test]
fn calls_are_counted_as_what_they_are_of_b_and_c() {
    let late =
        "room numbers=16\nopen kind=1 gaps=2 size=1 by=1 edition=1\nlate tick=0\nlate tick=2\n";
    let saved =
        "room numbers=20\nopen size=1 edition=1\nnext value=4\nsave bytes=16\ntake bytes=16\n";
    for (before, call, sorts) in [
        (
            "room numbers=12\n",
            "open size=1 edition=1",
            &["open by 0", "open of B 1, in order"][..],
        ),
        (
            "room numbers=8\n",
            "open size=1 by=2 edition=2",
            &[
                "open by 2",
                "open of C 1, in order",
                "open of odd C, in order",
            ],
        ),
        (
            "room numbers=99\n",
            "open size=9223372036854775809 edition=1",
            &[
                "open of B good in its lowest 32 bits",
                "open of B that doubles to a good C in 64 bits",
            ],
        ),
        (
            "",
            "load size=2147483649 edition=2",
            &["load of B that doubles to a good C in 32 bits"],
        ),
        (
            "",
            "load size=513 kind=1 gaps=2 by=1 edition=1",
            &["load of C 513, late"],
        ),
        (
            "room numbers=15\n",
            "open kind=1 gaps=2 size=1 by=1 edition=1",
            &["open a number short, late", "open short for want of K"],
        ),
        ("", "open kind=1 gaps=2 size=1 by=1 edition=2", &[]),
        (
            late,
            "late tick=1",
            &[
                "merged at C 1, late",
                "merged at odd C, late",
                "state of an odd base",
            ],
        ),
        (
            late,
            "late tick=3",
            &["filled at odd C, late", "state of an odd base"],
        ),
        (
            saved,
            "load size=2 by=1 edition=1",
            &[
                "load by 1",
                "load of C 2, in order",
                "load of even C, in order",
                "loaded by C, opened by B",
            ],
        ),
        (
            saved,
            "load size=1 by=1",
            &[
                "load by 1",
                "load of C 1, in order",
                "load of odd C, in order",
                "loaded by one less",
            ],
        ),
        (
            "room numbers=2200\nopen size=512 by=1 edition=1\nstate base=513\n",
            "worst",
            &["state of base 513"],
        ),
    ] {
        let mut met = sizes_of(&format!("{before}{call}\n"));
        for (name, times) in sizes_of(before) {
            *met.get_mut(&name).unwrap() -= times;
        }
        met.retain(|_, times| *times > 0);
        assert!(met.keys().eq(sorts), "{call}: {met:?}");
    }
}

#[test]
fn the_script_of_base_limits_meets_every_sort() {
    let met = sizes_of(&scripts::of_name("base").unwrap().text);
    let wanted = sizes::wanted();
    for sort in wanted.keys().filter(|sort| !sort.starts_with("replay ")) {
        let times = met.get(sort).copied().unwrap_or(0);
        assert!(times >= 50, "{sort}: {times}");
    }
}

#[test]
fn the_script_of_editions_meets_every_sort() {
    let script = scripts::of_name("edition").unwrap();
    let met = told::obey(script.text.as_bytes(), &mut std::io::sink())
        .unwrap()
        .met();
    // What another script tries more of: other refusals, and tables that are so large or so small.
    let elsewhere = ["in edition 2 refused", "at C 512", "at C 1,"];
    let wanted = editions::wanted();
    let own = |sort: &&String| !elsewhere.iter().any(|of| sort.contains(of));
    for sort in wanted.keys().filter(own) {
        let times = met.get(sort).copied().unwrap_or(0);
        assert!(times >= 50, "{sort}: {times}");
    }
    assert!(wanted.keys().filter(own).count() > 150);
}

/// Of flat pins: about 16 readings, about the times that C goes into 4,096 and about a stretch, from an empty trace on.
#[test]
fn the_script_of_editions_feeds_each_length_at_one_call() {
    let script = scripts::of_name("edition").unwrap();
    let mut session = Session::new();
    let mut fed = BTreeSet::new();
    for line in script.text.lines() {
        let Some(command) = Command::of_line(line).unwrap() else {
            continue;
        };
        let State { base, used, .. } = session.state;
        let answer = session.obey(&command);
        if let (Answer::Fed(all), 0) = (answer, used) {
            fed.insert((command.word, all.state.edition, base, all.accepted));
        }
    }
    for base in [
        1_u64, 2, 3, 4, 16, 30, 31, 32, 33, 34, 64, 128, 230, 231, 511, 512,
    ] {
        for about in [16, 4_096 / base, (2 * base + 48).min(510)] {
            // The list has no more.
            for length in (about - 1..=about + 1).filter(|&length| length <= 4_096) {
                for word in [Word::NextMany, Word::LateMany] {
                    for edition in [1, 2] {
                        let call = (word, edition, base, length);
                        assert!(fed.contains(&call), "{call:?}");
                    }
                }
            }
        }
    }
}

/// What the script meets of the sorts that the editions are told apart by.
fn editions_of(script: &str) -> Met {
    let counts = told::obey(script.as_bytes(), &mut std::io::sink()).unwrap();
    let mut met = counts.met();
    met.retain(|name, _| editions::wanted().contains_key(name));
    met
}

#[test]
fn calls_are_counted_as_what_they_are_of_the_editions() {
    let three = "next value=5\nnext value=5\nnext value=5\n";
    let opened = |edition| format!("room numbers=12\nopen size=1 edition={edition}\n{three}");
    let both = format!("{}next value=5\n{}", opened(1), opened(2));
    let other_readings = both.replacen("=5", "=4", 1);
    let saved = format!("{}save bytes=32\ntake bytes=32\n", opened(1));
    let late = "room numbers=16\nopen kind=1 gaps=2 size=1 by=1 edition=2\nlate tick=0\nlate tick=1\nlate tick=2\nlate tick=4\n";
    let replayed = "room numbers=16\nfile bytes=6\nreplay size=1 gaps=1 edition=1\n";
    let by_count = [
        "merged in edition 2 at C 2, in order",
        "merged in edition 2 otherwise than in the other, in order",
        "merged in edition 2, in order: by the count",
        "next in edition 2 otherwise than in the other",
    ];
    let paired = [
        by_count[0],
        by_count[1],
        by_count[2],
        by_count[3],
        "tables that differ by the edition, in order",
    ];
    let told = [
        by_count[0],
        by_count[1],
        by_count[2],
        "nexttold in edition 2 otherwise than in the other",
    ];
    // By C = 64 two merges are needed before the editions can differ.
    let at_64 = |edition| format!("room numbers=260\nopen size=64 by=1 edition={edition}\n");
    let cases: [(&str, &str, &[&str]); 26] = [
        (
            "room numbers=12\n",
            "open size=1 edition=2",
            &["open by edition 2, in order"],
        ),
        (
            "",
            "open edition=3",
            &["open by edition 3", "open refused 16 before 1"],
        ),
        (
            "room numbers=12\nset value=5\n",
            "open size=1 edition=4294967297",
            &[
                "open by edition 4294967297",
                "open refused 16 alone",
                "open refused 16 over numbers",
            ],
        ),
        (
            "",
            "open kind=1 size=1",
            &[
                "open by edition 0",
                "open by no edition, none at hand",
                "open refused 16 before 2",
            ],
        ),
        (
            "room numbers=12\nstate edition=1\n",
            "open size=1",
            &["open by edition 1, in order", "open by no edition, 1 at hand"],
        ),
        (
            "room numbers=16\nfile bytes=5\n",
            "replay size=1 gaps=1 edition=258",
            &["replay by edition 258", "replay refused 16 before 7"],
        ),
        (
            "room numbers=16\nfile bytes=5\n",
            "replay size=1 gaps=1 edition=2",
            &["replay in edition 2 refused 7"],
        ),
        (&opened(2), "next value=5", &by_count),
        (&opened(2), "nexttold value=5", &told),
        (
            &opened(1),
            "next value=5",
            &[
                "merged in edition 1 at C 2, in order",
                "merged in edition 1 otherwise than in the other, in order",
                "merged in edition 1, in order: by the start against the count",
                "merged in edition 1, in order: by the start among equal spreads",
                "next in edition 1 otherwise than in the other",
            ],
        ),
        (
            "room numbers=12\nopen size=1 edition=2\n",
            "nextmany values=2048",
            &["nextmany in edition 2 otherwise than in the other"],
        ),
        (
            &at_64(2),
            "nextmany values=67",
            &[
                "nextmany in edition 2 otherwise than in the other",
                "nextmany in edition 2 otherwise than in the other, of 16 and of 4096 / C or more, C not 2",
            ],
        ),
        (
            &format!("{}nextmany values=4\n", at_64(2)),
            "nextmany values=63",
            &["nextmany in edition 2 otherwise than in the other"],
        ),
        (
            &at_64(1),
            "nextmany values=67",
            &["nextmany in edition 1 otherwise than in the other"],
        ),
        (&at_64(2), "nextmany values=65", &[]),
        // Three ticks that are flat before two that are 7 apart.
        (
            &opened(2),
            "next value=12",
            &[
                "merged in edition 2 at C 2, in order",
                "merged in edition 2, in order: by the spread against the count",
                "merged in edition 2, in order: by the spread alone",
            ],
        ),
        (
            "room numbers=12\nopen size=1 edition=2\nnext value=5\nnext value=5\n",
            "next value=5",
            &[
                "merged in edition 2 at C 2, in order",
                "merged in edition 2, in order: by the start among equal counts",
            ],
        ),
        (&both, "next value=5", &paired),
        (&other_readings, "next value=5", &by_count),
        (
            &saved,
            "load size=1 edition=2",
            &[
                "load by edition 2, in order",
                "loaded in edition 2, saved in the other, in order",
            ],
        ),
        (
            &saved,
            "load size=1 edition=2\nnext value=5",
            &[
                "gone on in edition 2 otherwise than it was saved in, in order",
                "load by edition 2, in order",
                "loaded in edition 2, saved in the other, in order",
                by_count[0],
                by_count[1],
                by_count[2],
                by_count[3],
            ],
        ),
        (
            &opened(1),
            "state edition=3\nworst",
            &["state of edition 3", "worst refused 4 for the edition alone"],
        ),
        (
            &opened(1),
            "state edition=3 readings=9\nworst",
            &["state of edition 3"],
        ),
        (
            late,
            "late tick=3",
            &[
                "late in edition 2 otherwise than in the other",
                "merged in edition 2 at C 1, late",
                "merged in edition 2 otherwise than in the other, late",
                "merged in edition 2, late: by the count",
                "merged in edition 2, late: by the start among equal counts, behind one of more ticks",
                "two merges in edition 2",
                "two merges in edition 2 otherwise than in the other",
                "two merges in edition 2, the second by the count",
            ],
        ),
        (
            late,
            "latetold tick=3",
            &[
                "latetold in edition 2 otherwise than in the other",
                "merged in edition 2 at C 1, late",
                "merged in edition 2 otherwise than in the other, late",
                "merged in edition 2, late: by the count",
                "merged in edition 2, late: by the start among equal counts, behind one of more ticks",
                "two merges in edition 2",
                "two merges in edition 2 otherwise than in the other",
                "two merges in edition 2, the second by the count",
            ],
        ),
        (
            replayed,
            "replay size=1 gaps=1 edition=2",
            &[
                "replay by edition 2, late",
                "tables alike in both editions, replayed",
            ],
        ),
    ];
    for (before, calls, sorts) in cases {
        let mut met = editions_of(&format!("{before}{calls}\n"));
        for (name, times) in editions_of(before) {
            *met.get_mut(&name).unwrap() -= times;
        }
        met.retain(|_, times| *times > 0);
        assert!(met.keys().eq(sorts), "{calls}: {met:?}");
    }
}

#[test]
fn the_script_of_replays_meets_every_sort() {
    let script = scripts::of_name("replay").unwrap();
    let met = told::obey(script.text.as_bytes(), &mut std::io::sink())
        .unwrap()
        .met();
    let of_replays = |sort: &str| {
        let of_editions = sort.contains("edition") || sort.contains("refused 16");
        !of_editions && ["replay ", "record"].iter().any(|of| sort.starts_with(of))
    };
    let wanted = counts::wanted();
    let wanted = wanted.iter().filter(|(sort, _)| of_replays(sort));
    assert!(wanted.clone().count() > 60);
    for (sort, &times) in wanted {
        let there = met.get(sort).copied().unwrap_or(0);
        assert!(there >= times, "{sort}: {there} of {times}");
    }
}

/// What a replay of these counters by C = 2 is counted as; its readings are -1.
fn recordings_of(gaps: usize, counters: &[u16]) -> Vec<String> {
    let [numbers, bytes] = [4 * (gaps + 3), 6 * counters.len()];
    let mut script = format!("room numbers={numbers}\nfile bytes={bytes}\n");
    for (at, counter) in counters.iter().enumerate() {
        script += &format!("frame at={at} counter={counter} value=-1\n");
    }
    script += &format!("replay size=1 gaps={gaps} edition=1\n");
    let counts = told::obey(script.as_bytes(), &mut std::io::sink()).unwrap();
    let sort = |name: &String| name.strip_prefix("recording: ").map(String::from);
    counts.met().keys().filter_map(sort).collect()
}

#[test]
fn recordings_are_counted_as_what_they_are() {
    let below = "a reading below 0";
    let recordings: [(usize, &[u16], &[&str]); 9] = [
        (1, &[], &[]),
        (1, &[9], &[below]),
        (
            1,
            &[65_535, 0],
            &[below, "all of several accepted", "wraps forward"],
        ),
        (
            1,
            &[0, 65_535],
            &[
                below,
                "all of several accepted",
                "wraps backward",
                "wraps backward and is accepted",
            ],
        ),
        (
            2,
            &[40_000, 7_232, 7_233],
            &[
                "a difference of -32767",
                "a difference of -32768",
                "a reading at tick 0",
                below,
                "accepted below the newest before an accepted one",
                "all of several accepted",
            ],
        ),
        (
            2,
            &[0, 32_766, 65_533],
            &["a difference of 32766", "a difference of 32767", below],
        ),
        (
            2,
            &[65_000, 32_000, 65_000, 32_001, 60_000],
            &[
                below,
                "refused by 11 before an accepted one",
                "wraps backward",
                "wraps forward",
            ],
        ),
        (
            2,
            &[0, 2, 4, 1],
            &[
                below,
                "refused above the newest before an accepted one",
                "refused by 9 before an accepted one",
            ],
        ),
        (
            6,
            &[65_000, 30_000, 60_000, 20_000, 50_000, 10_000],
            &[
                below,
                "all of several accepted",
                "wraps forward",
                "wraps forward three times",
            ],
        ),
    ];
    for (gaps, counters, sorts) in recordings {
        assert_eq!(recordings_of(gaps, counters), sorts, "{counters:?}");
    }
}

#[test]
fn the_script_of_pictures_meets_every_sort() {
    let script = scripts::of_name("picture").unwrap();
    let met = told::obey(script.text.as_bytes(), &mut std::io::sink())
        .unwrap()
        .met();
    // 95 bytes alone, their 950 pairs less those of two signs that count twice, and 161 bad bytes at four places are among them.
    assert!(pictures::wanted().len() > 95 + 925 + 644);
    for (sort, times) in pictures::wanted() {
        let there = met.get(&sort).copied().unwrap_or(0);
        assert!(there >= times, "{sort}: {there} of {times}");
    }
}

/// What one picture of the late table (5, 3, -4 to 1), (8, 2, 5 to 5), (11, 3, 0 to 1) is counted as; the file begins with these bytes.
fn pictures_of(letters: &[u8], calls: &str) -> Vec<String> {
    let slots = "slot start=5 count=3 least=-4 largest=1\nslot at=1 start=8 count=2 least=5 largest=5\nslot at=2 start=11 count=3 least=0 largest=1";
    let mut script = format!("room numbers=24\nopen kind=1 size=1 gaps=3 edition=2\n{slots}\nstate used=3 runs=2 readings=8\nblank bytes=65536 value=165\n");
    for (at, byte) in letters.iter().enumerate() {
        script += &format!("byte at={at} value={byte}\n");
    }
    script += &format!("{calls}\n");
    let counts = told::obey(script.as_bytes(), &mut std::io::sink()).unwrap();
    let sort = |name: &String| name.strip_prefix("picture: ").map(String::from);
    let sorts = counts.met().keys().filter_map(sort).collect::<Vec<_>>();
    let is_sort = |sort: &String| sort != "bytes written";
    sorts.into_iter().filter(is_sort).collect()
}

#[test]
fn pictures_are_counted_as_what_they_are() {
    let of_table = [
        "from a tick above 0 on",
        "of a level of a negative odd sum",
        "of a level that is rounded down",
        "of a tick that is rounded down",
        "of an odd span above 1",
        "of missing ticks and of neighbours",
    ];
    let drawn = &["with marks behind it"];
    let long = [b'-'; 201];
    let cases: [(&[u8], &str, &[&str]); 10] = [
        (
            b"a",
            "picture letters=1 bytes=9999",
            &["caption of 1 bytes", "caption of byte 97 alone"],
        ),
        (
            b"&a",
            "picture letters=2 bytes=22866",
            &["caption of bytes 38 97", "in an output of 22866 bytes"],
        ),
        (b"ab", "picture letters=2 bytes=9999", &[]),
        (
            b"&lt;",
            "picture letters=4 bytes=9999",
            &["with a typed entity"],
        ),
        (b"", "picture", &["refused by 13 for want of any output"]),
        (b"", "picture bytes=50", &["refused by 13 over marks"]),
        (
            b"a\n",
            "picture letters=2 bytes=50",
            &[
                "bad byte 10 at the end",
                "refused by 15 over marks",
                "refused by 15 with a short output",
            ],
        ),
        (
            b"\x7F",
            "picture letters=1 bytes=9999",
            &[
                "bad byte 127 alone",
                "refused by 15 over marks",
                "refused by 15 with an output that is long enough",
            ],
        ),
        (
            &long,
            "picture letters=201 bytes=9999",
            &[
                "caption of 201 bytes",
                "refused by 15 over marks",
                "refused by 15 with an output that is long enough",
            ],
        ),
        (
            b"\n",
            "state readings=9\npicture letters=1",
            &[
                "refused by 4 with a bad caption",
                "refused by 4 without an output",
            ],
        ),
    ];
    for (letters, calls, sorts) in cases {
        let met = pictures_of(letters, calls);
        let is_drawn = met.contains(&drawn[0].to_string());
        let mut expected: Vec<&str> = sorts.to_vec();
        expected.extend(drawn.iter().filter(|_| is_drawn));
        expected.extend(of_table.iter().filter(|_| is_drawn));
        expected.sort();
        assert_eq!(met, expected, "{calls}");
        assert_eq!(
            is_drawn,
            sorts.iter().all(|sort| !sort.contains("refused")),
            "{calls}"
        );
    }
    // The same buckets, in order and late.
    let one = "room numbers=24\nopen kind=0 size=1 edition=1\nnext\npicture bytes=9999\nopen kind=1 size=1 gaps=1 edition=2\nlate\npicture bytes=9999";
    let sorts = pictures_of(b"", one);
    assert!(sorts.contains(&"of the buckets before, of the other kind".to_string()));
    assert!(sorts.contains(&"of the buckets before, by another edition".to_string()));
    assert!(!sorts.contains(&"of the buckets before, by another C".to_string()));
}

#[test]
fn what_is_missing_is_said() {
    let mut met = counts::wanted();
    assert_eq!(counts::missing(&met).len(), 1);
    met.insert("load accepted".to_string(), 350_000);
    assert!(counts::missing(&met).is_empty());
    met.remove("worst refused 4");
    assert_eq!(
        counts::missing(&met),
        ["worst refused 4: 0 where 100 are wanted"]
    );
}
