//! A small generator that gives the same numbers for the same seed (splitmix64).

pub struct Random {
    position: u64,
}

impl Random {
    pub fn new(seed: u64) -> Random {
        Random { position: seed }
    }

    pub fn number(&mut self) -> u64 {
        self.position = self.position.wrapping_add(0x9E37_79B9_7F4A_7C15);
        let mut mixed = self.position;
        mixed = (mixed ^ (mixed >> 30)).wrapping_mul(0xBF58_476D_1CE4_E5B9);
        mixed = (mixed ^ (mixed >> 27)).wrapping_mul(0x94D0_49BB_1331_11EB);
        mixed ^ (mixed >> 31)
    }

    /// From 0 to one below `end`; small ends only, where the unevenness of the remainder is nothing.
    pub fn below(&mut self, end: u64) -> u64 {
        self.number() % end
    }

    /// From `least` to `largest`, both included.
    pub fn between(&mut self, least: i64, largest: i64) -> i64 {
        least + self.below((largest - least) as u64 + 1) as i64
    }

    pub fn choice<T: Copy>(&mut self, of: &[T]) -> T {
        of[self.below(of.len() as u64) as usize]
    }
}
