//! Numbers that look random, for the benchmarks of the libraries.

/// xorshift from a seed that isn't 0. No number comes twice before all have come.
pub struct Random(pub u64);

impl Iterator for Random {
    type Item = u64;

    fn next(&mut self) -> Option<u64> {
        self.0 ^= self.0 << 13;
        self.0 ^= self.0 >> 7;
        self.0 ^= self.0 << 17;
        Some(self.0)
    }
}

impl Random {
    /// A number below the limit.
    pub fn below(&mut self, limit: usize) -> usize {
        let number = self.next().expect("it has no end");
        ((u128::from(number) * limit as u128) >> 64) as usize
    }

    /// The numbers below `count`, shuffled.
    pub fn shuffled(&mut self, count: usize) -> Vec<u32> {
        let mut numbers: Vec<u32> = (0..count as u32).collect();
        for last in (1..count).rev() {
            numbers.swap(last, self.below(last + 1));
        }
        numbers
    }
}
