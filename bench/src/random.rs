//! Xorshift: the same numbers in each run.
pub struct Random(u64);

impl Random {
    pub fn new(seed: u64) -> Random {
        Random(seed)
    }

    /// A number from `low` to `high`.
    pub fn between(&mut self, low: i16, high: i16) -> i16 {
        self.0 ^= self.0 << 13;
        self.0 ^= self.0 >> 7;
        self.0 ^= self.0 << 17;
        let size = (i32::from(high) - i32::from(low)) as u64 + 1;
        (i64::from(low) + (self.0 % size) as i64) as i16
    }
}
