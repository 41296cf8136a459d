//! Random numbers from a seed (splitmix64).

pub struct Random {
    state: u64,
}

impl Random {
    /// The numbers of one case under a seed.
    pub fn of_case(seed: u64, case: u64) -> Random {
        let mut random = Random { state: seed };
        random.state = random.any() ^ case.wrapping_mul(0xd134_2543_de82_ef95);
        random
    }

    /// Any number.
    pub fn any(&mut self) -> u64 {
        self.state = self.state.wrapping_add(0x9e37_79b9_7f4a_7c15);
        let mut mixed = self.state;
        mixed = (mixed ^ mixed >> 30).wrapping_mul(0xbf58_476d_1ce4_e5b9);
        mixed = (mixed ^ mixed >> 27).wrapping_mul(0x94d0_49bb_1331_11eb);
        mixed ^ mixed >> 31
    }

    /// A number below `limit`, which is not 0.
    pub fn below(&mut self, limit: usize) -> usize {
        (self.any() % limit as u64) as usize
    }

    /// A number from `first` to `last`.
    pub fn between(&mut self, first: usize, last: usize) -> usize {
        first + self.below(last - first + 1)
    }

    /// True once in so many times.
    pub fn once_in(&mut self, times: usize) -> bool {
        self.below(times) == 0
    }

    pub fn coin(&mut self) -> bool {
        self.once_in(2)
    }

    /// One of the choices.
    pub fn pick<T: Copy>(&mut self, choices: &[T]) -> T {
        choices[self.below(choices.len())]
    }

    /// A number of at most `bits` bits, any of these lengths about as often.
    pub fn up_to_bits(&mut self, bits: u32) -> u64 {
        let bits = self.below(bits as usize + 1) as u32;
        self.any().checked_shr(64 - bits).unwrap_or(0)
    }

    pub fn byte(&mut self) -> u8 {
        self.any() as u8
    }
}
