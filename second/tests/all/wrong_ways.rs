//! The easy ways to get the rule wrong, each on an input where it shows; those to get a search wrong, each on the script of searches; those to
//! get B and C wrong, each on the script of base limits; and those to get a replay wrong, each on a recording where it shows and on the script of
//! replays.

use crate::support::{bucket, Trace};
use second::calls::{
    self, Size::Steps, EDITION, GAPS, LENGTH, OVERFULL, RECORD_BYTES, ROOM, STEPS, UNSOUND,
};
use second::clauses;
use second::command::{Command, Name, Word};
use second::rule::{self, insertion, limit, neighbours, runs, Bucket, Edition, Kind, TICKS};
use second::scripts;
use second::session::{kind_of, record_of_bytes, size_of, Answer, Session};
use std::sync::LazyLock;

/// A way to keep a table: what makes a pair cheap, what a merged bucket is, what may be merged.
struct Way {
    cost: fn(&Bucket, &Bucket) -> i64,
    union: fn(&Bucket, &Bucket) -> Bucket,
    may_merge: fn(&Bucket, &Bucket) -> bool,
    always_two_at_a_closing: bool,
}

const RIGHT: Way = Way {
    cost: |first, second| first.union(second).spread(),
    union: Bucket::union,
    may_merge: neighbours,
    always_two_at_a_closing: false,
};

impl Way {
    fn table(&self, kind: Kind, base: u64, readings: &[(u32, i32)]) -> Vec<Bucket> {
        let mut table = Vec::new();
        for &(tick, value) in readings {
            let runs_before = runs(&table);
            insertion(&mut table, u64::from(tick), i64::from(value));
            if self.always_two_at_a_closing && runs(&table) < runs_before {
                self.merge(&mut table);
                self.merge(&mut table);
            }
            while table.len() as u64 > limit(kind, base, runs(&table)) {
                self.merge(&mut table);
            }
        }
        table
    }

    fn merge(&self, table: &mut Vec<Bucket>) {
        let first = (0..table.len() - 1)
            .filter(|&first| (self.may_merge)(&table[first], &table[first + 1]))
            .min_by_key(|&first| (self.cost)(&table[first], &table[first + 1]))
            .unwrap();
        let second = table.remove(first + 1);
        table[first] = (self.union)(&table[first], &second);
    }

    fn in_order(&self, values: &[i32]) -> Vec<Bucket> {
        self.table(Kind::InOrder, 2, &numbered(values))
    }
}

fn numbered(values: &[i32]) -> Vec<(u32, i32)> {
    (0..).zip(values.iter().copied()).collect()
}

/// The wrong way's table differs; the calls and the right way agree on this one.
fn differs_in_order(wrong: Way, values: &[i32], right: &[Bucket]) {
    assert_eq!(Trace::in_order(Steps(1), values).buckets(), right);
    assert_eq!(RIGHT.in_order(values), right);
    assert_ne!(wrong.in_order(values), right);
}

fn differs_late(wrong: Way, readings: &[(u32, i32)], right: &[Bucket]) {
    assert_eq!(Trace::late_of(Steps(1), 2, readings).buckets(), right);
    assert_eq!(RIGHT.table(Kind::Late, 2, readings), right);
    assert_ne!(wrong.table(Kind::Late, 2, readings), right);
}

#[test]
fn smallest_sum_of_errors() {
    let wrong = Way {
        cost: |first, second| first.error() + second.error(),
        ..RIGHT
    };
    let right = [bucket(0, 1, 0, 0), bucket(1, 2, 10, 11)];
    differs_in_order(wrong, &[0, 10, 11], &right);
}

#[test]
fn closest_levels() {
    let wrong = Way {
        cost: |first, second| (first.level() - second.level()).abs(),
        ..RIGHT
    };
    let right = [bucket(0, 2, 0, 10), bucket(2, 2, -9, -1)];
    differs_in_order(wrong, &[0, 10, -1, -9], &right);
}

#[test]
fn widening_by_the_neighbours_level() {
    let wrong = Way {
        union: |first, second| Bucket {
            least: first.least.min(second.level()),
            largest: first.largest.max(second.level()),
            ..first.union(second)
        },
        ..RIGHT
    };
    let right = [bucket(0, 3, 0, 104), bucket(3, 1, 300, 300)];
    differs_in_order(wrong, &[0, 100, 104, 300], &right);
}

#[test]
fn subtracting_in_32_signed_bits() {
    let wrong = Way {
        cost: |first, second| {
            let union = first.union(second);
            i64::from((union.largest as i32).wrapping_sub(union.least as i32))
        },
        ..RIGHT
    };
    let right = [
        bucket(0, 1, i64::from(i32::MIN), i64::from(i32::MIN)),
        bucket(1, 2, 0, i64::from(i32::MAX)),
    ];
    differs_in_order(wrong, &[i32::MIN, i32::MAX, 0], &right);
}

#[test]
fn always_two_merges_when_a_run_closes() {
    let wrong = Way {
        always_two_at_a_closing: true,
        ..RIGHT
    };
    let right = [bucket(0, 1, 1, 1), bucket(1, 1, 9, 9), bucket(2, 1, 5, 5)];
    differs_late(wrong, &[(0, 1), (2, 5), (1, 9)], &right);
}

#[test]
fn merging_across_a_missing_tick() {
    let wrong = Way {
        may_merge: |_, _| true,
        ..RIGHT
    };
    let right = [
        bucket(0, 2, 0, 100),
        bucket(5, 1, 100, 100),
        bucket(6, 1, 300, 300),
        bucket(7, 1, 600, 600),
    ];
    let readings = [(0, 0), (1, 100), (5, 100), (6, 300), (7, 600)];
    differs_late(wrong, &readings, &right);
}

/// A way to search: which buckets are of the range, which are over the bar, which of those is told and by what index.
struct SearchWay {
    of_range: fn(&Bucket, u64, u64) -> bool,
    over: fn(&Bucket, i64) -> bool,
    last_hit: bool,
    index_in_range: bool,
}

const RIGHT_SEARCH: SearchWay = SearchWay {
    of_range: |bucket, first, last| first <= last && bucket.start <= last && first < bucket.end(),
    over: |bucket, bar| bucket.largest >= bar,
    last_hit: false,
    index_in_range: false,
};

impl SearchWay {
    fn answer(&self, table: &[Bucket], first: u64, last: u64, bar: i64) -> Option<(u64, u64)> {
        let all = table.iter().zip(0..);
        let of_range = all.filter(|(bucket, _)| (self.of_range)(bucket, first, last));
        let mut hits = of_range
            .zip(0..)
            .filter(|((bucket, _), _)| (self.over)(bucket, bar));
        let hit = if self.last_hit {
            hits.last()
        } else {
            hits.next()
        };
        let ((bucket, index), index_in_range) = hit?;
        let told = if self.index_in_range {
            index_in_range
        } else {
            index
        };
        Some((told, bucket.start))
    }

    /// The searches of the script that are answered otherwise than the call answers them.
    fn differences(&self) -> usize {
        let script = scripts::of_name("search").unwrap();
        let mut session = Session::new();
        let mut differences = 0;
        for line in script.text.lines() {
            let Some(command) = Command::of_line(line).unwrap() else {
                continue;
            };
            if let Answer::Over(Ok(right)) = session.obey(&command) {
                let [first, last] = [Name::First, Name::Last].map(|end| command.number(end) as u32);
                let bar = i64::from(command.number(Name::Bar) as i32);
                let [first, last] = [first, last].map(u64::from);
                let answer = self.answer(&session.buckets(), first, last, bar);
                differences += usize::from(answer != right);
            }
        }
        differences
    }
}

fn differs_on_the_script(wrong: SearchWay) {
    assert_eq!(RIGHT_SEARCH.differences(), 0);
    let differences = wrong.differences();
    assert!(differences >= 100, "{differences}");
}

#[test]
fn an_empty_range_that_is_of_a_bucket() {
    differs_on_the_script(SearchWay {
        of_range: |bucket, first, last| bucket.start <= last && first < bucket.end(),
        ..RIGHT_SEARCH
    });
}

#[test]
fn only_buckets_wholly_in_the_range() {
    differs_on_the_script(SearchWay {
        of_range: |bucket, first, last| first <= bucket.start && bucket.end() <= last + 1,
        ..RIGHT_SEARCH
    });
}

#[test]
fn only_buckets_that_start_in_the_range() {
    differs_on_the_script(SearchWay {
        of_range: |bucket, first, last| first <= bucket.start && bucket.start <= last,
        ..RIGHT_SEARCH
    });
}

#[test]
fn a_range_without_its_last_tick() {
    differs_on_the_script(SearchWay {
        of_range: |bucket, first, last| first < last && bucket.start < last && first < bucket.end(),
        ..RIGHT_SEARCH
    });
}

#[test]
fn the_tick_after_a_bucket_taken_for_its_own() {
    differs_on_the_script(SearchWay {
        of_range: |bucket, first, last| {
            first <= last && bucket.start <= last && first <= bucket.end()
        },
        ..RIGHT_SEARCH
    });
}

#[test]
fn above_the_bar_in_place_of_at_or_above() {
    differs_on_the_script(SearchWay {
        over: |bucket, bar| bucket.largest > bar,
        ..RIGHT_SEARCH
    });
}

#[test]
fn the_level_in_place_of_the_largest_reading() {
    differs_on_the_script(SearchWay {
        over: |bucket, bar| bucket.level() >= bar,
        ..RIGHT_SEARCH
    });
}

#[test]
fn the_last_hit() {
    differs_on_the_script(SearchWay {
        last_hit: true,
        ..RIGHT_SEARCH
    });
}

#[test]
fn the_index_among_the_buckets_of_the_range() {
    differs_on_the_script(SearchWay {
        index_in_range: true,
        ..RIGHT_SEARCH
    });
}

/// A way to take B and C: the base limit of what is named, where it is good, whether a state's is, the limit, and the slots needed.
struct SizeWay {
    base: fn(u64, u64) -> Option<u64>,
    is_sound: fn(u64) -> bool,
    limit: fn(Kind, u64, u64) -> u64,
    needed: fn(Kind, u64, u64) -> u64,
}

const RIGHT_SIZE: SizeWay = SizeWay {
    base: |size, by| match by {
        0 => (1..=256).contains(&size).then_some(size.wrapping_mul(2)),
        _ => (1..=512).contains(&size).then_some(size),
    },
    is_sound: |base| base != 0 && base <= 512,
    limit: |kind, base, runs| base + if kind == Kind::Late { runs } else { 0 },
    needed: |kind, base, gaps| base + 1 + if kind == Kind::Late { gaps } else { 0 },
};

/// What a call is refused by, or the base limit and the buckets of the state that it answers; zeros where it answers none.
type Told = Result<(u64, u64), u32>;

impl SizeWay {
    /// The kind and the base limit.
    fn opened(&self, session: &Session, command: &Command) -> Result<(Kind, u64), u32> {
        let number = |name| session.setting(command, name);
        let (kind, gaps) = (kind_of(number(Name::Kind)), number(Name::Gaps));
        let base = (self.base)(number(Name::Size), number(Name::By)).ok_or(STEPS)?;
        if kind == Kind::Late && !(1..=256).contains(&gaps) {
            return Err(GAPS);
        }
        if (session.lent as u64) < 4 * (self.needed)(kind, base, gaps) {
            return Err(ROOM);
        }
        Ok((kind, base))
    }

    fn loaded(&self, session: &Session, command: &Command) -> Told {
        let (kind, base) = self.opened(session, command)?;
        let bucket_of = |bytes| {
            let record = record_of_bytes(bytes);
            let [start, count] = [record.start, record.count].map(u64::from);
            bucket(start, count, record.least.into(), record.largest.into())
        };
        let records = session.lent_file().chunks_exact(RECORD_BYTES);
        let table: Vec<Bucket> = records.map(bucket_of).collect();
        let used = table.len() as u64;
        if used > (self.limit)(kind, base, runs(&table)) {
            return Err(OVERFULL);
        }
        Ok((base, used))
    }

    fn is_unsound(&self, session: &Session) -> bool {
        let state = session.state;
        let mut broken = clauses::broken(state, session.lent_numbers());
        broken[0] = !(self.is_sound)(state.base);
        // What is too large for a sum is refused above.
        if !broken[..3].contains(&true) {
            let needed = (self.needed)(state.kind, state.base, state.gaps);
            broken[3] = (session.lent as u64) < 4 * needed;
            broken[4] = state.used > (self.limit)(state.kind, state.base, state.runs);
        }
        broken.contains(&true)
    }

    /// The calls of the script that are answered otherwise than they should be. Its files break no rule, and have no more runs than are allowed.
    fn differences(&self) -> usize {
        let script = scripts::of_name("base").unwrap();
        let mut session = Session::new();
        let mut differences = 0;
        for line in script.text.lines() {
            let Some(command) = Command::of_line(line).unwrap() else {
                continue;
            };
            // Of many readings none may be asked for, which is no matter of sizes.
            if matches!(command.word, Word::NextMany | Word::LateMany) {
                session.obey(&command);
                continue;
            }
            let told = match command.word {
                Word::Open => Some(self.opened(&session, &command).map(|(_, base)| (base, 0))),
                Word::Load => Some(self.loaded(&session, &command)),
                word if word.is_call() => self.is_unsound(&session).then_some(Err(UNSOUND)),
                _ => None,
            };
            let before = session.state;
            let answer = session.obey(&command);
            let right = match &answer {
                Answer::State(Ok(after)) => Ok((after.base, after.used)),
                answer => answer
                    .refusal()
                    .map_or(Ok((0, 0)), |given| Err(given.number)),
            };
            let told = told.unwrap_or_else(|| match &answer {
                Answer::State(Ok(after)) => {
                    let limit = (self.limit)(after.kind, after.base, after.runs);
                    Ok((after.base, limit.min(before.used + 1)))
                }
                // Not refused as it should be, so that it goes on.
                _ if right == Err(UNSOUND) => Ok((before.base, before.used)),
                _ => right,
            });
            differences += usize::from(told != right);
        }
        differences
    }
}

#[test]
fn the_right_way_to_take_b_and_c() {
    assert_eq!(RIGHT_SIZE.differences(), 0);
}

fn differs_on_the_script_of_bases(wrong: SizeWay) {
    let differences = wrong.differences();
    assert!(differences >= 100, "{differences}");
}

#[test]
fn an_odd_base_halved_and_doubled() {
    differs_on_the_script_of_bases(SizeWay {
        base: |size, by| (RIGHT_SIZE.base)(size, by).map(|base| base / 2 * 2),
        ..RIGHT_SIZE
    });
}

#[test]
fn a_base_of_513_opened() {
    differs_on_the_script_of_bases(SizeWay {
        base: |size, by| match (size, by) {
            (513, 1..) => Some(513),
            _ => (RIGHT_SIZE.base)(size, by),
        },
        ..RIGHT_SIZE
    });
}

#[test]
fn a_base_of_513_that_is_sound() {
    differs_on_the_script_of_bases(SizeWay {
        is_sound: |base| base != 0 && base <= 513,
        ..RIGHT_SIZE
    });
}

#[test]
fn a_base_of_0_that_is_sound() {
    differs_on_the_script_of_bases(SizeWay {
        is_sound: |base| base <= 512,
        ..RIGHT_SIZE
    });
}

#[test]
fn a_b_of_257_opened() {
    differs_on_the_script_of_bases(SizeWay {
        base: |size, by| match (size, by) {
            (257, 0) => Some(514),
            _ => (RIGHT_SIZE.base)(size, by),
        },
        ..RIGHT_SIZE
    });
}

#[test]
fn b_doubled_in_64_bits_before_it_is_checked() {
    differs_on_the_script_of_bases(SizeWay {
        base: |size, by| match by {
            0 => (RIGHT_SIZE.base)(size.wrapping_mul(2), 1),
            _ => (RIGHT_SIZE.base)(size, by),
        },
        ..RIGHT_SIZE
    });
}

#[test]
fn a_size_cut_to_32_bits() {
    differs_on_the_script_of_bases(SizeWay {
        base: |size, by| (RIGHT_SIZE.base)(u64::from(size as u32), by),
        ..RIGHT_SIZE
    });
}

#[test]
fn a_by_of_2_taken_as_by_steps() {
    differs_on_the_script_of_bases(SizeWay {
        base: |size, by| (RIGHT_SIZE.base)(size, u64::from(by != 0 && by != 2)),
        ..RIGHT_SIZE
    });
}

#[test]
fn a_by_cut_to_32_bits() {
    differs_on_the_script_of_bases(SizeWay {
        base: |size, by| (RIGHT_SIZE.base)(size, u64::from(by as u32)),
        ..RIGHT_SIZE
    });
}

#[test]
fn a_late_limit_without_its_runs() {
    differs_on_the_script_of_bases(SizeWay {
        limit: |_, base, _| base,
        ..RIGHT_SIZE
    });
}

#[test]
fn a_late_room_without_k() {
    differs_on_the_script_of_bases(SizeWay {
        needed: |_, base, _| base + 1,
        ..RIGHT_SIZE
    });
}

/// The record that differences are taken from.
#[derive(Clone, Copy, PartialEq)]
enum Newest {
    Highest,
    LastAccepted,
    LastRecord,
    HighestEvenIfRefused,
    /// The highest one's tick with the last record's counter.
    HighestByLastCounter,
}

/// A way to replay: how a record is read, what a difference is, where the first record is, what the newest is and what is counted; and whether the
/// room is cleared before the length is looked at, whether it is looked at, and whether the kind is.
struct ReplayWay {
    counter: fn(u8, u8) -> i64,
    value: fn([u8; 4]) -> i64,
    difference: fn(i64) -> i64,
    first: i64,
    newest: Newest,
    refused_as_accepted: bool,
    clears_before_7: bool,
    any_length: bool,
    looks_at_kind: bool,
}

const RIGHT_REPLAY: ReplayWay = ReplayWay {
    counter: |low, high| i64::from(low) + 256 * i64::from(high),
    value: |bytes| i64::from(i32::from_le_bytes(bytes)),
    difference: |plain| match plain {
        ..-32_768 => plain + 65_536,
        32_768.. => plain - 65_536,
        _ => plain,
    },
    first: 32_768,
    newest: Newest::Highest,
    refused_as_accepted: false,
    clears_before_7: false,
    any_length: false,
    looks_at_kind: false,
};

/// The table with the records accepted and refused, or the refusal and whether the room is left.
type Replayed = Result<(Vec<Bucket>, u64, u64), (u32, bool)>;

/// What a replay is asked for.
struct Asked {
    edition: Option<Edition>,
    kind: u64,
    base: Option<u64>,
    gaps: u64,
    lent: usize,
    recording: Vec<u8>,
}

/// The replays of the script, and what they answer.
static OF_THE_SCRIPT: LazyLock<Vec<(Asked, Replayed)>> = LazyLock::new(|| {
    let script = scripts::of_name("replay").unwrap();
    let mut session = Session::new();
    let mut replays = Vec::new();
    for line in script.text.lines() {
        let Some(command) = Command::of_line(line).unwrap() else {
            continue;
        };
        let asked = (command.word == Word::Replay).then(|| Asked {
            edition: Edition::of_number(session.setting(&command, Name::Edition)),
            kind: session.setting(&command, Name::Kind),
            base: size_of(&command).base(),
            gaps: session.setting(&command, Name::Gaps),
            lent: session.lent,
            recording: session.lent_file().to_vec(),
        });
        if let Answer::Replayed(right) = session.obey(&command) {
            let right = match right {
                Ok(right) => Ok((session.buckets(), right.accepted, right.refused)),
                Err(refusal) => Err((refusal.number, true)),
            };
            replays.push((asked.unwrap(), right));
        }
    }
    replays
});

impl ReplayWay {
    fn answer(&self, asked: &Asked) -> Replayed {
        let edition = asked.edition.ok_or((EDITION, true))?;
        let base = asked.base.ok_or((STEPS, true))?;
        if !(1..=256).contains(&asked.gaps) {
            return Err((GAPS, true));
        }
        let short = asked.lent < calls::needed_numbers(Kind::Late, base, asked.gaps);
        let odd = !asked.recording.len().is_multiple_of(6) && !self.any_length;
        if short {
            return Err((ROOM, true));
        }
        if odd {
            return Err((LENGTH, !self.clears_before_7));
        }
        if self.looks_at_kind && asked.kind == 0 {
            return Ok((Vec::new(), 0, 0));
        }
        Ok(self.replayed(edition, base, asked.gaps, &asked.recording))
    }

    fn replayed(
        &self,
        edition: Edition,
        base: u64,
        gaps: u64,
        recording: &[u8],
    ) -> (Vec<Bucket>, u64, u64) {
        let mut table: Vec<Bucket> = Vec::new();
        let mut newest: Option<(i64, i64)> = None;
        let (mut accepted, mut refused) = (0, 0);
        for bytes in recording.chunks_exact(6) {
            let counter = (self.counter)(bytes[0], bytes[1]);
            let value = (self.value)(bytes[2..].try_into().unwrap());
            let tick = newest.map_or(self.first, |(tick, from)| {
                tick + (self.difference)(counter - from)
            });
            // One below 0 is far above in 32 bits.
            let good = (0..TICKS as i64).contains(&tick)
                && rule::holding_bucket(&table, tick as u64).is_none()
                && rule::runs_with(&table, tick as u64) <= gaps;
            if good {
                rule::reading(edition, Kind::Late, base, &mut table, tick as u64, value);
            }
            if good || self.refused_as_accepted {
                accepted += 1;
            } else {
                refused += 1;
            }
            let higher = newest.is_none_or(|(highest, _)| tick > highest);
            let raised = match self.newest {
                Newest::Highest | Newest::HighestByLastCounter => good && higher,
                Newest::LastAccepted => good,
                Newest::LastRecord => true,
                Newest::HighestEvenIfRefused => higher,
            };
            if raised {
                newest = Some((tick, counter));
            } else if self.newest == Newest::HighestByLastCounter {
                newest = newest.map(|(tick, _)| (tick, counter));
            }
        }
        (table, accepted, refused)
    }

    /// The replays of the script that are answered otherwise than the call answers them.
    fn differences(&self) -> usize {
        let differs = |(asked, right): &&(Asked, Replayed)| self.answer(asked) != *right;
        OF_THE_SCRIPT.iter().filter(differs).count()
    }
}

#[test]
fn the_right_way_to_replay() {
    assert_eq!(RIGHT_REPLAY.differences(), 0);
}

/// On records of these counters by C = 4, and in a hundred replays of the script.
fn differs_replayed(wrong: ReplayWay, gaps: u64, counters: &[u16]) {
    let mut recording = Vec::new();
    for counter in counters {
        let [low, high] = counter.to_le_bytes();
        recording.extend([low, high, 9, low, 0, 128]);
    }
    differs_on_the_recording(wrong, gaps, &recording);
}

fn differs_on_the_recording(wrong: ReplayWay, gaps: u64, recording: &[u8]) {
    let asked = Asked {
        edition: Some(Edition::First),
        kind: 0,
        base: Some(4),
        gaps,
        lent: 4 * (gaps as usize + 5),
        recording: recording.to_vec(),
    };
    let mut room = vec![0; asked.lent];
    let right = match calls::replay(1, calls::Size::Base(4), gaps, recording, &mut room) {
        Ok(right) => {
            let record = |slot: &[i64]| bucket(slot[0] as u64, slot[1] as u64, slot[2], slot[3]);
            let table = room[..4 * right.state.used as usize].chunks(4).map(record);
            Ok((table.collect(), right.accepted, right.refused))
        }
        Err(refusal) => Err((refusal.number, true)),
    };
    assert_eq!(RIGHT_REPLAY.answer(&asked), right);
    assert_ne!(wrong.answer(&asked), right);
    let differences = wrong.differences();
    assert!(differences >= 100, "{differences}");
}

#[test]
fn the_newest_as_the_last_accepted() {
    let wrong = ReplayWay {
        newest: Newest::LastAccepted,
        ..RIGHT_REPLAY
    };
    differs_replayed(wrong, 4, &[0, 32_767, 1, 65_534]);
}

#[test]
fn the_newest_as_the_last_record() {
    let wrong = ReplayWay {
        newest: Newest::LastRecord,
        ..RIGHT_REPLAY
    };
    differs_replayed(wrong, 4, &[0, 32_767, 1, 65_534]);
}

#[test]
fn the_newest_raised_by_refused_records() {
    let wrong = ReplayWay {
        newest: Newest::HighestEvenIfRefused,
        ..RIGHT_REPLAY
    };
    differs_replayed(wrong, 2, &[0, 2, 32_769, 65_535]);
}

#[test]
fn the_last_record_s_counter_with_the_newest_tick() {
    let wrong = ReplayWay {
        newest: Newest::HighestByLastCounter,
        ..RIGHT_REPLAY
    };
    differs_replayed(wrong, 1, &[5, 4, 6]);
}

#[test]
fn a_difference_of_32768_as_it_is() {
    let wrong = ReplayWay {
        difference: |plain| match (RIGHT_REPLAY.difference)(plain) {
            -32_768 => 32_768,
            difference => difference,
        },
        ..RIGHT_REPLAY
    };
    differs_replayed(wrong, 2, &[0, 32_768]);
}

#[test]
fn a_difference_of_32767_as_one_below_0() {
    let wrong = ReplayWay {
        difference: |plain| match (RIGHT_REPLAY.difference)(plain) {
            32_767 => -32_769,
            difference => difference,
        },
        ..RIGHT_REPLAY
    };
    differs_replayed(wrong, 2, &[0, 32_767]);
}

#[test]
fn a_counter_that_does_not_wrap() {
    let wrong = ReplayWay {
        difference: |plain| plain,
        ..RIGHT_REPLAY
    };
    differs_replayed(wrong, 2, &[65_535, 0]);
}

#[test]
fn a_difference_that_is_never_below_0() {
    let wrong = ReplayWay {
        difference: |plain| plain.rem_euclid(65_536),
        ..RIGHT_REPLAY
    };
    differs_replayed(wrong, 2, &[5, 4]);
}

#[test]
fn the_first_record_at_0() {
    let wrong = ReplayWay {
        first: 0,
        ..RIGHT_REPLAY
    };
    differs_replayed(wrong, 1, &[0]);
}

#[test]
fn refused_records_counted_as_accepted() {
    let wrong = ReplayWay {
        refused_as_accepted: true,
        ..RIGHT_REPLAY
    };
    differs_replayed(wrong, 1, &[0, 0]);
}

#[test]
fn a_counter_high_byte_first() {
    let wrong = ReplayWay {
        counter: |low, high| (RIGHT_REPLAY.counter)(high, low),
        ..RIGHT_REPLAY
    };
    differs_replayed(wrong, 1, &[0, 1]);
}

#[test]
fn a_reading_without_a_sign() {
    let wrong = ReplayWay {
        value: |bytes| i64::from(u32::from_le_bytes(bytes)),
        ..RIGHT_REPLAY
    };
    differs_replayed(wrong, 1, &[0]);
}

#[test]
fn a_reading_high_byte_first() {
    let wrong = ReplayWay {
        value: |bytes| i64::from(i32::from_be_bytes(bytes)),
        ..RIGHT_REPLAY
    };
    differs_replayed(wrong, 1, &[0]);
}

#[test]
fn a_length_refused_after_the_room_is_cleared() {
    let wrong = ReplayWay {
        clears_before_7: true,
        ..RIGHT_REPLAY
    };
    differs_on_the_recording(wrong, 1, &[0; 7]);
}

#[test]
fn bytes_behind_the_last_whole_record_passed_over() {
    let wrong = ReplayWay {
        any_length: true,
        ..RIGHT_REPLAY
    };
    differs_on_the_recording(wrong, 1, &[0; 7]);
}

#[test]
fn a_trace_in_order_where_the_kind_is_0() {
    let wrong = ReplayWay {
        looks_at_kind: true,
        ..RIGHT_REPLAY
    };
    differs_replayed(wrong, 1, &[0]);
}
