//! The readings that a feed command makes, from a shape and a seed, and the ticks of late ones.
//!
//! The noise is a row of 32-bit numbers: each is made from the one before, the first from the seed, by exclusive or with itself moved
//! 13 up, then 17 down, then 5 up. Every reading takes one number of it, whether the shape uses it or not. A value is a sum modulo
//! 2^32, read as two's complement. The turn counts the readings of the command from 0; the position is seed plus turn.
//!
//! | Shape | Value |
//! |---|---|
//! | 0 constant | the seed |
//! | 1 ramp | seed plus three times the turn |
//! | 2 square wave with dips | 7,400 where the position leaves 36 by 37; else 60 where it leaves less than 50 by 100, else 12,050 |
//! | 3 noise | the noise's remainder by 2,001, less 1,000 |
//! | 4 few levels | the noise's remainder by 4 |
//! | 5 and above, full swings | the noise |
//!
//! A late reading's tick goes by an order.
//!
//! | Order | Tick |
//! |---|---|
//! | 0 up | the turn |
//! | 1 down | 16,777,215 less the turn, modulo 2^32 |
//! | 2 displaced a little | of each eight turns the first, plus five times the turn's place among the eight, modulo 8 |
//! | 3 every second first | of each sixteen ticks the even ones, then the odd ones |
//! | 4 from both ends | of each 64 ticks the first, the last, the second, the last but one, and so on to the middle |
//! | 5 bursty | of each 32 ticks the ninth to the last, then the first eight together |
//! | 6 and above, by chance | the noise's upper 16 bits by 64 times one more than the order, the remainder |

#[derive(Clone, Copy)]
pub enum Shape {
    Constant,
    Ramp,
    Square,
    Noise,
    FewLevels,
    FullSwings,
}

pub const SHAPES: u8 = 6;

impl Shape {
    pub fn of(number: u8) -> Shape {
        match number {
            0 => Shape::Constant,
            1 => Shape::Ramp,
            2 => Shape::Square,
            3 => Shape::Noise,
            4 => Shape::FewLevels,
            _ => Shape::FullSwings,
        }
    }

    fn value(self, seed: u32, turn: u32, noise: u32) -> i32 {
        let position = u64::from(seed) + u64::from(turn);
        match self {
            Shape::Constant => seed as i32,
            Shape::Ramp => (u64::from(seed) + 3 * u64::from(turn)) as u32 as i32,
            Shape::Square => square(position),
            Shape::Noise => (noise % 2_001) as i32 - 1_000,
            Shape::FewLevels => (noise % 4) as i32,
            Shape::FullSwings => noise as i32,
        }
    }
}

pub fn square(position: u64) -> i32 {
    match (position % 37, position % 100) {
        (36, _) => 7_400,
        (_, 0..50) => 60,
        _ => 12_050,
    }
}

/// One reading that is fed, with what its tick is made from.
#[derive(Clone, Copy)]
pub struct Reading {
    pub value: i32,
    turn: u32,
    noise: u32,
}

impl Reading {
    pub fn tick(&self, order: u8) -> u32 {
        match order {
            0 => self.turn,
            1 => 16_777_215_u32.wrapping_sub(self.turn),
            2 => (self.turn & !7) + (self.turn & 7) * 5 % 8,
            3 => (self.turn & !15) | (self.turn & 7) << 1 | (self.turn >> 3 & 1),
            4 if self.turn & 1 == 0 => (self.turn & !63) + (self.turn & 63) / 2,
            4 => (self.turn | 63) - (self.turn & 63) / 2,
            5 => (self.turn & !31) + (self.turn + 8) % 32,
            _ => (self.noise >> 16) % (64 * (u32::from(order) + 1)),
        }
    }
}

/// As many as a command can ask for.
pub fn readings(shape: Shape, seed: u32) -> impl Iterator<Item = Reading> {
    noise(seed)
        .zip(0..=u32::MAX)
        .map(move |(noise, turn)| Reading {
            value: shape.value(seed, turn, noise),
            turn,
            noise,
        })
}

fn noise(seed: u32) -> impl Iterator<Item = u32> {
    std::iter::successors(Some(stirred(seed)), |&number| Some(stirred(number)))
}

fn stirred(mut number: u32) -> u32 {
    number ^= number << 13;
    number ^= number >> 17;
    number ^= number << 5;
    number
}
