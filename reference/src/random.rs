//! A small seeded source of random numbers (splitmix64).

pub struct Random(u64);

impl Random {
    pub fn new(seed: u64) -> Random {
        Random(seed)
    }

    pub fn word(&mut self) -> u64 {
        self.0 = self.0.wrapping_add(0x9e37_79b9_7f4a_7c15);
        let mut z = self.0;
        z = (z ^ (z >> 30)).wrapping_mul(0xbf58_476d_1ce4_e5b9);
        z = (z ^ (z >> 27)).wrapping_mul(0x94d0_49bb_1331_11eb);
        z ^ (z >> 31)
    }

    /// Both ends included.
    pub fn between(&mut self, low: u64, high: u64) -> u64 {
        match (high - low).checked_add(1) {
            Some(span) => low + self.word() % span,
            None => self.word(),
        }
    }

    /// Both ends included.
    pub fn time_between(&mut self, low: i64, high: i64) -> i64 {
        low.wrapping_add(self.between(0, high.wrapping_sub(low) as u64) as i64)
    }

    pub fn below(&mut self, bound: usize) -> usize {
        (self.word() % bound as u64) as usize
    }

    /// True so many times in a hundred.
    pub fn chance(&mut self, hundredths: u64) -> bool {
        self.word() % 100 < hundredths
    }

    pub fn pick<T: Copy>(&mut self, from: &[T]) -> T {
        from[self.below(from.len())]
    }

    /// A number of any size up to a largest one, each number of bits as likely.
    pub fn magnitude(&mut self, most: u64) -> u64 {
        let bits = self.between(0, u64::from(64 - most.leading_zeros()));
        let number = if bits == 0 { 0 } else { self.word() >> (64 - bits) };
        number.min(most)
    }

    /// The number or a neighbour, wrapping.
    pub fn near(&mut self, number: u64) -> u64 {
        number.wrapping_add(self.between(0, 2)).wrapping_sub(1)
    }
}
