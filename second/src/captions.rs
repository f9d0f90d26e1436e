//! The captions that pictures are tried with.

/// The five bytes that leave as an entity.
pub const SIGNS: [u8; 5] = *b"&<>\"'";

/// The bytes that a caption may have, in their order.
pub fn good_bytes() -> impl Iterator<Item = u8> + Clone {
    0x20..=0x7E
}

/// The bytes that it may not have.
pub fn bad_bytes() -> impl Iterator<Item = u8> + Clone {
    (0..=u8::MAX).filter(|byte| !(0x20..=0x7E).contains(byte))
}

/// The captions of sample/captions.txt, a line each: those that a reader without care would take for markup or run.
pub fn hostile() -> Vec<&'static [u8]> {
    let lines = include_str!("../../sample/captions.txt").lines();
    lines.map(str::as_bytes).collect()
}

/// So many bytes, each in its turn, from one of them on.
pub fn in_turn(from: usize, length: usize) -> Vec<u8> {
    good_bytes().cycle().skip(from).take(length).collect()
}
