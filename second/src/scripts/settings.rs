//! Open and load by settings of all 64 bits, each bound of B, C and K from both sides, and rooms about the needed length that hold what was there before.

use crate::calls::{self, Size, MOST_GAPS};
use crate::command::Word;
use crate::rule::Kind;
use crate::script::{nearest_base, Script};
use crate::session::NUMBERS;

const KINDS: [u64; 5] = [0, 1, 7, 1 << 32, u64::MAX];
/// B where `by` is 0, else C. The lowest 32 bits of those from 2^32 on would do.
const SIZES: [(u64, u64); 15] = [
    (0, 0),
    (1, 0),
    (2, 0),
    (255, 0),
    (256, 0),
    (257, 0),
    (65_536, 0),
    (1 << 32, 0),
    ((1 << 32) + 1, 0),
    ((1 << 63) + 2, 0),
    (u64::MAX, 0),
    (3, 1),
    (512, 2),
    (513, 1 << 32),
    ((1 << 32) + 1, 1 << 63),
];
const GAPS: [u64; 9] = [
    0,
    1,
    2,
    256,
    257,
    1 << 32,
    (1 << 32) + 1,
    (1 << 63) + 2,
    u64::MAX,
];

pub fn write(script: &mut Script) {
    script.heading("# open with settings of 64 bits");
    script.each_setting(|script, kind, (size, by), gaps| {
        script.named(Word::Open, kind, size, gaps, by);
        script.next(0);
    });
    script.heading("# load with settings of 64 bits");
    script.record(0, [0, 2, -1, 1]);
    script.record(1, [2, 1, 5, 5]);
    script.file_length(32);
    script.each_setting(|script, kind, (size, by), gaps| {
        script.named(Word::Load, kind, size, gaps, by);
    });
    script.heading("# rooms of any length");
    for numbers in [0, 1, 11, 12, 13, 16, 5_000, NUMBERS] {
        for kind in [Kind::InOrder, Kind::Late] {
            script.room(numbers);
            script.fill(-9);
            script.open_as(kind as u64, Size::Steps(1), 1);
            script.next(3);
            script.late(4, 3);
            script.give(Word::Worst, &[]);
            script.lookup(4);
            script.lookup(0);
        }
    }
}

impl Script {
    fn each_setting(&mut self, mut call: impl FnMut(&mut Script, u64, (u64, u64), u64)) {
        for kind in KINDS {
            for (size, by) in SIZES {
                for gaps in GAPS {
                    let trace_kind = if kind == 0 { Kind::InOrder } else { Kind::Late };
                    let base = nearest_base(size, by);
                    let fitting = calls::needed_numbers(trace_kind, base, gaps.clamp(1, MOST_GAPS));
                    let numbers = fitting + 1 - self.random.below(3) as usize;
                    self.room(numbers);
                    self.set(fitting - 1, -1);
                    self.set(fitting, -2);
                    call(self, kind, (size, by), gaps);
                }
            }
        }
    }
}
