//! The same numbers in every run.
pub struct Random(u64);

impl Random {
    pub fn new(seed: u64) -> Random {
        Random(seed.wrapping_mul(0x9E37_79B9_7F4A_7C15) | 1)
    }
    pub fn next(&mut self) -> u64 {
        self.0 ^= self.0 << 13;
        self.0 ^= self.0 >> 7;
        self.0 ^= self.0 << 17;
        self.0.wrapping_mul(0x2545_F491_4F6C_DD1D)
    }
    pub fn below(&mut self, n: u64) -> u64 {
        ((u128::from(self.next()) * u128::from(n)) >> 64) as u64
    }
    pub fn one_in(&mut self, n: u64) -> bool {
        self.below(n) == 0
    }
    pub fn pick<T: Copy>(&mut self, of: &[T]) -> T {
        of[self.below(of.len() as u64) as usize]
    }
    /// A number at most `most`: any length in bits is as likely as another, and limits and their neighbours are frequent.
    pub fn near(&mut self, limits: &[u64], most: u64) -> u64 {
        let v = match self.below(3) {
            0 => self.pick(limits).saturating_add(self.below(3)).saturating_sub(1),
            1 => self.next() >> self.below(64),
            _ => self.below(20),
        };
        if v <= most { v } else { self.below(most + 1) }
    }
}
