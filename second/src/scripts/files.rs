//! Saved files of every size up to the limit, each of them whole and with one fault, loaded with settings that fit and that do not.
//!
//! A shape is a kind, B or C, K and a number of records; its file is what a trace of that kind, size and K could have saved. In order, and late where
//! K is 1, the first record starts at 0 and each other one at the end of the one before. Any other late file has as many runs as K and its
//! records allow. While fewer have begun, a record of even index begins one, and one of odd index does where otherwise too few records
//! would be left; it starts 2, 3 or 4 ticks, for an index that leaves 0, 1 or 2 by 3, after the end of the one before, the first of all after 0.
//! Any other record starts at that end. The ticks of a record go by its index modulo 8: 3, 1, 2, 1, 700, 1, 5, 65,536; but the last of an odd
//! number of records ends at 16,777,216. Least and largest go by the index modulo 5: -5 and 7, the two ends of the range, 0 and 0, -3 and -2,
//! 2,147,483,646 and 2,147,483,647; where the record has one tick its largest is its least.
//!
//! The shapes: in order with B 1, C 3, B 2 and C 5, each with 0 to C records, which is 2B; late with the same and K of 1, 2 and 3, each with 0 to
//! C + K records. In order B 16 with 0 to 32 records, late C 31 and K 16 with 0 to 47. Then in order B 32 with 63 and 64 records, late C 63 and
//! K 256 with 100, 318 and 319, in order C 511 with 510 and 511, late B 256 and K 256 with 767 and 768. K is 3 where the trace is in order,
//! which takes no notice of it.
//!
//! | Fault | Places | At a place |
//! |---|---|---|
//! | whole | 1 | nothing |
//! | a bit flipped | each bit, of each byte from the lowest | it is turned over |
//! | one dropped | each record | it is left out |
//! | one doubled | each record | it stands twice |
//! | two swapped | each record but the last | it stands behind the next |
//! | cut short | 15 of any file but the empty one | 1 to 15 bytes are missing at the end |
//! | a count of 0 | each record | its count is 0 |
//! | past the end | three for each record | it starts so that it ends at 16,777,217; it starts at 4,294,967,295; its count is 4,294,967,295 |
//! | least above largest | two for each record | 0 above -1; the upper end of the range above the lower |
//! | unequal in one tick | each record | its count is 1, its least -1 and its largest 1 |
//! | a gap | each record | it and those behind it start a tick later |
//! | a run more | 1 | before the first stands a record of tick 0 alone, its reading 4 |
//! | a record more | each record of more than one tick | it is two: its first tick, of the least reading, and the others, least and largest kept but where they are one tick |
//!
//! A file of at most nine records gets the fault at every place; any other file at each place whose number divides by 211 where a bit is flipped, by 17 otherwise,
//! and all 15 cuts.
//!
//! The settings are the shape's kind, size and K, and the room holds the numbers that a trace of the settings' kind with the shape's size and K
//! needs, and five more; but for what is said here. Where a bit is flipped only 0 to 5 are tried.
//!
//! | Setting | |
//! |---|---|
//! | 0 | |
//! | 1 | the other kind |
//! | 2, 3 | B or C one less; K one less |
//! | 4, 5 | as many numbers as are needed; one number short |
//! | 6, 7 | B or C is 0; B is 257 or C is 513 |
//! | 8, 9 | K is 0; 257 |
//! | 10 | B or C and K are 0, and the room has no number |
//! | 11 | K is 257, and the room has no number |
//! | 12 | the room has no number |
//!
//! Before a load every number of the room is one of five, turn by turn. An accepted load is saved twice into an output that holds 165 everywhere
//! and is twenty bytes longer than the file: with a byte less of it than the file has, and with all of it.

use crate::calls::{self, Record, Size, MOST_BASE, MOST_STEPS, RECORD_BYTES, SLOT};
use crate::rule::{Kind, TICKS};
use crate::script::Script;
use crate::session::record_bytes;
use Size::{Base, Steps};

#[derive(Clone, Copy, Debug)]
pub struct Shape {
    pub kind: Kind,
    pub size: Size,
    pub gaps: u64,
    pub records: usize,
}

#[derive(Clone, Copy, Debug, PartialEq, Eq)]
pub enum Fault {
    Whole,
    Flipped,
    Dropped,
    Doubled,
    Swapped,
    Cut,
    Empty,
    PastTheEnd,
    LeastAboveLargest,
    Unequal,
    Gap,
    RunMore,
    RecordMore,
}

pub const FAULTS: [Fault; 13] = [
    Fault::Whole,
    Fault::Flipped,
    Fault::Dropped,
    Fault::Doubled,
    Fault::Swapped,
    Fault::Cut,
    Fault::Empty,
    Fault::PastTheEnd,
    Fault::LeastAboveLargest,
    Fault::Unequal,
    Fault::Gap,
    Fault::RunMore,
    Fault::RecordMore,
];

const VALUES: [(i32, i32); 5] = [
    (-5, 7),
    (i32::MIN, i32::MAX),
    (0, 0),
    (-3, -2),
    (i32::MAX - 1, i32::MAX),
];
/// What the room holds before a load, over and over.
pub const OLD_NUMBERS: [i64; 5] = [1001, -1002, 1003, i64::MIN, i64::MAX];
const OLD_BYTE: u8 = 165;
const SETTINGS: usize = 13;
/// A file of at most so many records gets its fault at every place.
const SMALL: usize = 9;

/// One try: a file, and the settings and numbers lent that it is loaded with.
pub struct Try<'a> {
    pub place: usize,
    pub setting: usize,
    pub file: &'a [u8],
    pub kind: Kind,
    pub size: Size,
    pub gaps: u64,
    pub lent: usize,
}

pub fn shapes() -> Vec<Shape> {
    let mut shapes = Vec::new();
    let mut add = |kind, size, gaps, records| {
        shapes.push(Shape {
            kind,
            size,
            gaps,
            records,
        });
    };
    let small = [(Steps(1), 2), (Base(3), 3), (Steps(2), 4), (Base(5), 5)];
    for (size, base) in small {
        for records in 0..=base {
            add(Kind::InOrder, size, 3, records as usize);
        }
    }
    for (size, base) in small {
        for gaps in 1..=3 {
            for records in 0..=base + gaps {
                add(Kind::Late, size, gaps, records as usize);
            }
        }
    }
    for records in 0..=32 {
        add(Kind::InOrder, Steps(16), 3, records);
    }
    for records in 0..=47 {
        add(Kind::Late, Base(31), 16, records);
    }
    for (kind, size, gaps, counts) in [
        (Kind::InOrder, Steps(32), 3, &[63, 64][..]),
        (Kind::Late, Base(63), 256, &[100, 318, 319]),
        (Kind::InOrder, Base(511), 3, &[510, 511]),
        (Kind::Late, Steps(256), 256, &[767, 768]),
    ] {
        for &records in counts {
            add(kind, size, gaps, records);
        }
    }
    shapes
}

pub fn heading(fault: Fault) -> String {
    format!("# files, {}", fault.name())
}

pub fn write(script: &mut Script) {
    for fault in FAULTS {
        script.heading(&heading(fault));
        for shape in shapes() {
            each_try(&shape, fault, |given| script.try_file(given));
        }
    }
}

impl Script {
    fn try_file(&mut self, given: &Try) {
        self.file(given.file);
        self.room(given.lent);
        let old = OLD_NUMBERS[self.calls as usize % OLD_NUMBERS.len()];
        self.fill(old);
        let length = given.file.len() as u64;
        if !self.load_as(given.kind as u64, given.size, given.gaps) {
            return;
        }
        self.blank(length + 20, OLD_BYTE);
        if length > 0 {
            self.save(length - 1);
        }
        self.save(length + 20);
    }
}

/// Every try of the shape's file with the fault, place by place and setting by setting.
pub fn each_try(shape: &Shape, fault: Fault, mut tried: impl FnMut(&Try)) {
    let records = shape.saved();
    let settings = match fault {
        Fault::Flipped => 6,
        _ => SETTINGS,
    };
    let apart = match fault {
        _ if shape.records <= SMALL => 1,
        Fault::Flipped => 211,
        Fault::Cut => 1,
        _ => 17,
    };
    for place in (0..fault.places(records.len())).step_by(apart) {
        let Some(file) = fault.file(&records, place) else {
            continue;
        };
        for setting in 0..settings {
            let (kind, size, gaps, lent) = shape.setting(setting);
            tried(&Try {
                place,
                setting,
                file: &file,
                kind,
                size,
                gaps,
                lent,
            });
        }
    }
}

impl Shape {
    fn saved(&self) -> Vec<Record> {
        let n = self.records;
        let mut runs_left = match self.kind {
            Kind::Late if self.gaps > 1 => n.min(self.gaps as usize),
            _ => 0,
        };
        let mut end = 0;
        let mut records = Vec::new();
        for index in 0..n {
            if runs_left > 0 && (index % 2 == 0 || runs_left == n - index) {
                runs_left -= 1;
                end += 2 + (index % 3) as u32;
            }
            let count = match [3, 1, 2, 1, 700, 1, 5, 65_536][index % 8] {
                _ if n % 2 == 1 && index + 1 == n => TICKS as u32 - end,
                count => count,
            };
            records.push(record(end, count, VALUES[index % 5]));
            end += count;
        }
        records
    }

    /// Kind, B or C, K and the numbers lent.
    fn setting(&self, number: usize) -> (Kind, Size, u64, usize) {
        let other = match self.kind {
            Kind::InOrder => Kind::Late,
            Kind::Late => Kind::InOrder,
        };
        let Shape {
            kind, size, gaps, ..
        } = *self;
        let base = size.base().expect("a size in bounds");
        let (less, none, beyond) = match size {
            Steps(steps) => (Steps(steps - 1), Steps(0), Steps(MOST_STEPS + 1)),
            Base(base) => (Base(base - 1), Base(0), Base(MOST_BASE + 1)),
        };
        let needed = calls::needed_slots(kind, base, gaps) * SLOT;
        let lent = needed + 5;
        match number {
            1 => {
                let lent = calls::needed_slots(other, base, gaps) * SLOT + 5;
                (other, size, gaps, lent)
            }
            2 => (kind, less, gaps, lent),
            3 => (kind, size, gaps - 1, lent),
            4 => (kind, size, gaps, needed),
            5 => (kind, size, gaps, needed - 1),
            6 => (kind, none, gaps, lent),
            7 => (kind, beyond, gaps, lent),
            8 => (kind, size, 0, lent),
            9 => (kind, size, 257, lent),
            10 => (kind, none, 0, 0),
            11 => (kind, size, 257, 0),
            12 => (kind, size, gaps, 0),
            _ => (kind, size, gaps, lent),
        }
    }
}

impl Fault {
    fn name(self) -> &'static str {
        match self {
            Fault::Whole => "whole",
            Fault::Flipped => "a bit flipped",
            Fault::Dropped => "one dropped",
            Fault::Doubled => "one doubled",
            Fault::Swapped => "two swapped",
            Fault::Cut => "cut short",
            Fault::Empty => "a count of 0",
            Fault::PastTheEnd => "past the end",
            Fault::LeastAboveLargest => "least above largest",
            Fault::Unequal => "unequal in one tick",
            Fault::Gap => "a gap",
            Fault::RunMore => "a run more",
            Fault::RecordMore => "a record more",
        }
    }

    fn places(self, records: usize) -> usize {
        match self {
            Fault::Whole | Fault::RunMore => 1,
            Fault::Flipped => records * RECORD_BYTES * 8,
            Fault::Swapped => records.saturating_sub(1),
            Fault::Cut if records == 0 => 0,
            Fault::Cut => RECORD_BYTES - 1,
            Fault::PastTheEnd => records * 3,
            Fault::LeastAboveLargest => records * 2,
            _ => records,
        }
    }

    /// Nothing where a record of one tick would have to be two.
    fn file(self, records: &[Record], place: usize) -> Option<Vec<u8>> {
        let mut records = records.to_vec();
        match self {
            Fault::Whole | Fault::Flipped | Fault::Cut => {}
            Fault::Dropped => {
                records.remove(place);
            }
            Fault::Doubled => records.insert(place, records[place]),
            Fault::Swapped => records.swap(place, place + 1),
            Fault::Empty => records[place].count = 0,
            Fault::PastTheEnd => {
                let record = &mut records[place / 3];
                match place % 3 {
                    0 => record.start = TICKS as u32 + 1 - record.count,
                    1 => record.start = u32::MAX,
                    _ => record.count = u32::MAX,
                }
            }
            Fault::LeastAboveLargest => {
                let (least, largest) = [(0, -1), (i32::MAX, i32::MIN)][place % 2];
                let record = &mut records[place / 2];
                (record.least, record.largest) = (least, largest);
            }
            Fault::Unequal => {
                let record = &mut records[place];
                (record.count, record.least, record.largest) = (1, -1, 1);
            }
            Fault::Gap => {
                for record in &mut records[place..] {
                    record.start += 1;
                }
            }
            Fault::RunMore => records.insert(0, record(0, 1, (4, 4))),
            Fault::RecordMore => {
                let whole = records[place];
                let values = (whole.least, whole.largest);
                let others = whole.count.checked_sub(1).filter(|&others| others > 0)?;
                records[place] = record(whole.start, 1, values);
                records.insert(place + 1, record(whole.start + 1, others, values));
            }
        }
        let mut bytes: Vec<u8> = records.iter().flat_map(record_bytes).collect();
        match self {
            Fault::Flipped => bytes[place / 8] ^= 1 << (place % 8),
            Fault::Cut => bytes.truncate(bytes.len() - (place + 1)),
            _ => {}
        }
        Some(bytes)
    }
}

/// A record of one tick has one reading.
fn record(start: u32, count: u32, (least, largest): (i32, i32)) -> Record {
    Record {
        start,
        count,
        least,
        largest: if count == 1 { least } else { largest },
    }
}
