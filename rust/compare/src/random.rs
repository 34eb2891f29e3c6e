//! Numbers by seed (xorshift64*).

use std::ops::RangeInclusive;

pub struct Random(u64);

impl Random {
    /// Any seed will do; the state must not be 0.
    pub fn new(seed: u64) -> Random {
        let mut random = Random(seed.wrapping_mul(0x9E37_79B9_7F4A_7C15) | 1);
        for _ in 0..8 {
            random.any();
        }
        random
    }

    pub fn any(&mut self) -> u64 {
        self.0 ^= self.0 >> 12;
        self.0 ^= self.0 << 25;
        self.0 ^= self.0 >> 27;
        self.0.wrapping_mul(0x2545_F491_4F6C_DD1D) >> 8
    }

    pub fn cell(&mut self) -> u32 {
        self.any() as u32
    }

    /// 0 to `limit - 1`; the limit must not be 0.
    pub fn below(&mut self, limit: u32) -> u32 {
        (self.any() % u64::from(limit)) as u32
    }

    pub fn between(&mut self, low: u32, high: u32) -> u32 {
        low + self.below(high - low + 1)
    }

    pub fn among(&mut self, numbers: &RangeInclusive<i64>) -> i64 {
        let count = numbers.end() - numbers.start() + 1;
        numbers.start() + (self.any() % count as u64) as i64
    }

    /// True once in so many times.
    pub fn once_in(&mut self, times: u32) -> bool {
        self.below(times) == 0
    }

    pub fn one_of<T: Copy>(&mut self, choices: &[T]) -> T {
        choices[self.below(choices.len() as u32) as usize]
    }

    /// Nothing of an empty list.
    pub fn any_of<T: Copy>(&mut self, choices: &[T]) -> Option<T> {
        (!choices.is_empty()).then(|| self.one_of(choices))
    }
}
