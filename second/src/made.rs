//! What scripts are made from: sound tables by chance, and values near and far of one that is there.

use crate::calls::SLOT;
use crate::random::Random;
use crate::rule::{Bucket, Kind, TICKS};

/// Another kind, which may be any number.
pub fn other_kind(random: &mut Random, kind: u64) -> u64 {
    let other = u64::from(kind == 0);
    random.choice(&[other, other, 7, 1 << 32, u64::MAX])
}

/// Numbers that are no edition: next to the two, and such as have one of them in some of their bits.
pub const NO_EDITIONS: [u64; 14] = [
    0,
    3,
    4,
    255,
    257,
    258,
    65_538,
    1 << 32,
    (1 << 32) + 1,
    (1 << 32) + 2,
    1 << 63,
    (1 << 63) + 1,
    u64::MAX - 1,
    u64::MAX,
];

/// Another edition, or a number that is none.
pub fn other_edition(random: &mut Random, edition: u64) -> u64 {
    let other = if edition == 1 { 2 } else { 1 };
    let none = random.choice(&NO_EDITIONS);
    random.choice(&[other, none, none])
}

/// Another value for a field of the state but its kind and its edition.
pub fn other_field(random: &mut Random, field: u64) -> u64 {
    let ends = [0, 1, 256, 257, 512, 513, TICKS, 1 << 32, 1 << 62, u64::MAX];
    let end = random.choice(&ends);
    random.choice(&[field.wrapping_add(1), field.saturating_sub(1), end])
}

/// Another value for a number of the room.
pub fn other_number(random: &mut Random, number: i64) -> i64 {
    let ends = [
        0,
        1,
        -1,
        i64::from(i32::MAX),
        i64::from(i32::MAX) + 1,
        i64::from(i32::MIN),
        i64::from(i32::MIN) - 1,
        i64::from(u32::MAX),
        i64::from(u32::MAX) + 1,
        TICKS as i64,
        i64::MAX,
        i64::MIN,
    ];
    let end = random.choice(&ends);
    let far = number.wrapping_add(1 << 32);
    random.choice(&[
        number.wrapping_add(1),
        number.wrapping_sub(1),
        far,
        end,
        end,
    ])
}

/// At most as many buckets as said, late ones with or without missing ticks between them.
pub fn table(random: &mut Random, kind: Kind, most: usize) -> Vec<Bucket> {
    let missing: &[u64] = match kind {
        Kind::InOrder => &[0],
        Kind::Late => &[0, 0, 1, 3],
    };
    let mut table = Vec::new();
    let mut end = 0;
    for _ in 0..random.between(0, most as i64) {
        let start = end + random.choice(missing);
        let count = random.choice(&[1, 1, 2, 5]);
        let least = random.between(-3, 3);
        let spread = if count == 1 { 0 } else { random.between(0, 3) };
        table.push(Bucket {
            start,
            count,
            least,
            largest: least + spread,
        });
        end = start + count;
    }
    table
}

/// The four numbers of a bucket in the room.
pub fn slot(bucket: &Bucket) -> [i64; SLOT] {
    let [start, count] = [bucket.start as i64, bucket.count as i64];
    [start, count, bucket.least, bucket.largest]
}
