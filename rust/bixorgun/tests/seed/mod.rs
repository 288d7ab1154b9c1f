//! Numbers drawn from a seed: every run of a test tries the same.

/// A linear congruential generator modulo 2^31.
pub struct Seed(u64);

impl Seed {
    pub const fn new(first: u64) -> Self {
        Seed(first % (1 << 31))
    }

    /// The next number, brought below n; 0 where n is 0.
    pub fn below(&mut self, n: u8) -> u8 {
        self.0 = (self.0 * 1_103_515_245 + 12_345) % (1 << 31);
        // The upper bits, since the lower ones of such a sequence soon repeat.
        let high = (self.0 >> 23) as u8;
        high.checked_rem(n).unwrap_or(0)
    }
}
