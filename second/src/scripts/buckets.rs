//! The arithmetic of one bucket at both ends of the range, about zero and between, odd and even; and traces of readings from there.

use crate::calls::Size;
use crate::command::{Name, Word};
use crate::rule::Kind;
use crate::script::{wide, Script};

const VALUES: [i32; 13] = [
    i32::MIN,
    i32::MIN + 1,
    -1_073_741_824,
    -1_001,
    -3,
    -2,
    -1,
    0,
    1,
    2,
    1_000,
    i32::MAX - 1,
    i32::MAX,
];

pub fn write(script: &mut Script) {
    script.heading("# level and error at both ends of the range");
    for (index, &least) in VALUES.iter().enumerate() {
        for &largest in &VALUES[index..] {
            for word in [Word::Level, Word::Error] {
                script.bucket(word, least, largest);
            }
        }
    }
    for _ in 0..500 {
        let [one, other] = [(); 2].map(|()| script.random.number() as i32);
        for word in [Word::Level, Word::Error] {
            script.bucket(word, one.min(other), one.max(other));
        }
    }
    // Spreads and unions of the same readings, by what is merged.
    for first in VALUES {
        for second in VALUES {
            script.open_fitting(Kind::InOrder, Size::Steps(1), 0);
            for value in [first, second, first, second, 0] {
                script.next(value);
            }
            script.sweep(0, 1, 5);
            script.worst();
        }
    }
}

impl Script {
    /// A bucket of one tick has one reading.
    pub(super) fn bucket(&mut self, word: Word, least: i32, largest: i32) {
        let count = if least == largest { 1 } else { 2 };
        let named = [
            (Name::Count, count),
            (Name::Least, wide(least)),
            (Name::Largest, wide(largest)),
        ];
        self.give(word, &named);
    }
}
