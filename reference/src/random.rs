//! A small seeded generator (splitmix64): the same seed gives the same cases.

pub struct Random {
    state: u64,
}

impl Random {
    pub fn new(seed: u64) -> Random {
        Random { state: seed }
    }

    pub fn word(&mut self) -> u64 {
        self.state = self.state.wrapping_add(0x9E37_79B9_7F4A_7C15);
        let mut mixed = self.state;
        mixed = (mixed ^ (mixed >> 30)).wrapping_mul(0xBF58_476D_1CE4_E5B9);
        mixed = (mixed ^ (mixed >> 27)).wrapping_mul(0x94D0_49BB_1331_11EB);
        mixed ^ (mixed >> 31)
    }

    /// A number from the lowest to the highest, both counted.
    pub fn between(&mut self, lowest: i64, highest: i64) -> i64 {
        let choices = highest.abs_diff(lowest) + 1;
        lowest + (self.word() % choices) as i64
    }

    /// Any signed 64-bit number, small and large ones alike.
    pub fn any(&mut self) -> i64 {
        let shift = self.word() % 64;
        (self.word() as i64) >> shift
    }
}
