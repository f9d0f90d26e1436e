//! What the tests share: a trace with its own room and tally, and random readings and traces.

use second::calls::Size::{self, Base, Steps};
use second::calls::{self, Record, Refusal, State, Tally, RECORD_BYTES, SLOT};
use second::random::Random;
use second::rule::{Bucket, Kind};

/// Stands in every slot, record and byte that no call may write.
pub const MARK: i64 = -77;
pub const MARK_RECORD: Record = Record {
    start: 7,
    count: 7,
    least: 7,
    largest: 7,
};
pub const MARK_BYTE: u8 = 0xA5;

/// Slots past the needed ones.
pub const SPARE: usize = 2;

#[derive(Clone, Debug, PartialEq)]
pub struct Trace {
    pub state: State,
    pub room: Vec<i64>,
    pub tally: Tally,
}

impl Trace {
    /// In the first edition, as all that names none.
    pub fn open(kind: Kind, size: Size, gaps: u64) -> Trace {
        Trace::open_in(1, kind, size, gaps)
    }

    pub fn open_in(edition: u64, kind: Kind, size: Size, gaps: u64) -> Trace {
        let mut room = marked_room(kind, size, gaps);
        let state = calls::open(edition, kind, size, gaps, &mut room).unwrap();
        Trace {
            state,
            room,
            tally: Tally::default(),
        }
    }

    pub fn in_order(size: Size, values: &[i32]) -> Trace {
        Trace::in_order_in(1, size, values)
    }

    pub fn in_order_in(edition: u64, size: Size, values: &[i32]) -> Trace {
        let mut trace = Trace::open_in(edition, Kind::InOrder, size, 0);
        for &value in values {
            trace.next(value).unwrap();
        }
        trace
    }

    pub fn late_of(size: Size, gaps: u64, readings: &[(u32, i32)]) -> Trace {
        Trace::late_in(1, size, gaps, readings)
    }

    pub fn late_in(edition: u64, size: Size, gaps: u64, readings: &[(u32, i32)]) -> Trace {
        let mut trace = Trace::open_in(edition, Kind::Late, size, gaps);
        for &(tick, value) in readings {
            trace.late(tick, value).unwrap();
        }
        trace
    }

    pub fn next(&mut self, value: i32) -> Result<(), Refusal> {
        self.state = calls::next_tallied(self.state, &mut self.room, value, &mut self.tally)?;
        Ok(())
    }

    pub fn late(&mut self, tick: u32, value: i32) -> Result<(), Refusal> {
        self.state = calls::late_tallied(self.state, &mut self.room, tick, value, &mut self.tally)?;
        Ok(())
    }

    pub fn needed(&self) -> usize {
        calls::needed_slots(self.state.kind, self.state.base, self.state.gaps) * SLOT
    }

    /// The buckets by way of a chart row, with everything around them looked at too.
    pub fn buckets(&self) -> Vec<Bucket> {
        let used = self.state.used as usize;
        let mut row = vec![MARK_RECORD; used + 1];
        assert_eq!(
            calls::row(self.state, &self.room, &mut row),
            Ok(used as u64)
        );
        assert_eq!(row.pop(), Some(MARK_RECORD));
        let (needed, spare) = self.room.split_at(self.needed());
        let (in_use, unused) = needed.split_at(used * SLOT);
        assert!(unused.iter().all(|&number| number == 0));
        assert!(spare.iter().all(|&number| number == MARK));
        for (slot, record) in in_use.chunks(SLOT).zip(&row) {
            assert_eq!(slot[0], i64::from(record.start));
            assert_eq!(slot[1], i64::from(record.count));
            assert_eq!(slot[2], i64::from(record.least));
            assert_eq!(slot[3], i64::from(record.largest));
        }
        row.iter()
            .map(|record| Bucket {
                start: u64::from(record.start),
                count: u64::from(record.count),
                least: i64::from(record.least),
                largest: i64::from(record.largest),
            })
            .collect()
    }

    pub fn saved(&self) -> Vec<u8> {
        let length = self.state.used as usize * RECORD_BYTES;
        let mut bytes = vec![MARK_BYTE; length + 3];
        assert_eq!(
            calls::save(self.state, &self.room, &mut bytes),
            Ok(self.state.used)
        );
        assert_eq!(bytes.split_off(length), [MARK_BYTE; 3]);
        bytes
    }

    /// The same trace saved and loaded, with the tally carried over.
    pub fn reloaded(&self) -> Trace {
        self.reloaded_in(self.state.edition)
    }

    /// The same buckets, which go on in this edition.
    pub fn reloaded_in(&self, edition: u64) -> Trace {
        let State {
            kind, base, gaps, ..
        } = self.state;
        let size = Base(base);
        let mut room = marked_room(kind, size, gaps);
        let state = calls::load(edition, kind, size, gaps, &self.saved(), &mut room).unwrap();
        Trace {
            state,
            room,
            tally: self.tally,
        }
    }
}

/// The needed slots and some spare ones, none of them written yet.
pub fn marked_room(kind: Kind, size: Size, gaps: u64) -> Vec<i64> {
    vec![MARK; (calls::needed_slots(kind, size.base().unwrap(), gaps) + SPARE) * SLOT]
}

/// The saved form of start, count, least and largest.
pub fn bytes_of(records: &[(u32, u32, i32, i32)]) -> Vec<u8> {
    let mut bytes = Vec::new();
    for &(start, count, least, largest) in records {
        bytes.extend(start.to_le_bytes());
        bytes.extend(count.to_le_bytes());
        bytes.extend(least.to_le_bytes());
        bytes.extend(largest.to_le_bytes());
    }
    bytes
}

pub fn loaded(kind: Kind, size: Size, gaps: u64, records: &[(u32, u32, i32, i32)]) -> Trace {
    let mut room = marked_room(kind, size, gaps);
    let state = calls::load(1, kind, size, gaps, &bytes_of(records), &mut room).unwrap();
    Trace {
        state,
        room,
        tally: Tally::default(),
    }
}

pub fn bucket(start: u64, count: u64, least: i64, largest: i64) -> Bucket {
    Bucket {
        start,
        count,
        least,
        largest,
    }
}

/// Readings near each other, far apart, or at the ends of their range.
pub fn random_value(random: &mut Random) -> i32 {
    let value = match random.below(8) {
        0 => random.choice(&[i32::MIN, i32::MIN + 1, -1, 0, 1, i32::MAX - 1, i32::MAX]) as i64,
        1 => random.between(i64::from(i32::MIN), i64::from(i32::MAX)),
        2 | 3 => random.between(-1000, 1000),
        _ => random.between(-9, 9),
    };
    value as i32
}

/// By either name, up to a base limit of 8.
pub fn random_size(random: &mut Random) -> Size {
    match random.below(2) {
        0 => Steps(random.between(1, 4) as u64),
        _ => Base(random.between(1, 8) as u64),
    }
}

/// A trace of some random readings, of either kind and in either edition.
pub fn random_trace(random: &mut Random) -> Trace {
    let size = random_size(random);
    let readings = random.below(40);
    let edition = random.choice(&[1, 2]);
    if random.below(2) == 0 {
        let mut trace = Trace::open_in(edition, Kind::InOrder, size, 0);
        for _ in 0..readings {
            trace.next(random_value(random)).unwrap();
        }
        return trace;
    }
    let gaps = random.between(1, 4) as u64;
    let mut trace = Trace::open_in(edition, Kind::Late, size, gaps);
    for _ in 0..readings {
        let tick = random.below(40) as u32;
        // Those that are taken or would make a run too many are left out.
        let _ = trace.late(tick, random_value(random));
    }
    trace
}
