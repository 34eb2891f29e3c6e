//! Random numbers from a seed.

/// Limits of the documents, those of form 1 among them, and their neighbours.
const WILD: [u32; 10] = [6, 7, 8, 12, 63, 64, 1 << 24, (1 << 24) - 1, u32::MAX, u32::MAX - 1];

pub struct Random(pub u64);

impl Random {
    /// The generator splitmix64.
    pub fn number(&mut self) -> u64 {
        self.0 = self.0.wrapping_add(0x9E37_79B9_7F4A_7C15);
        let mixed = (self.0 ^ self.0 >> 30).wrapping_mul(0xBF58_476D_1CE4_E5B9);
        let mixed = (mixed ^ mixed >> 27).wrapping_mul(0x94D0_49BB_1331_11EB);
        mixed ^ mixed >> 31
    }

    pub fn below(&mut self, bound: u32) -> u32 {
        (self.number() % u64::from(bound)) as u32
    }

    pub fn one_in(&mut self, times: u32) -> bool {
        self.below(times) == 0
    }

    pub fn one_of<'a, T>(&mut self, list: &'a [T]) -> Option<&'a T> {
        if list.is_empty() {
            return None;
        }
        list.get(self.below(list.len() as u32) as usize)
    }

    /// The numbers below a bound, in an order of chance.
    pub fn shuffled(&mut self, bound: u32) -> Vec<u32> {
        let mut numbers: Vec<u32> = (0..bound).collect();
        for last in (1..bound).rev() {
            numbers.swap(last as usize, self.below(last + 1) as usize);
        }
        numbers
    }

    /// A number for a cell or a wild argument.
    pub fn cell(&mut self) -> u32 {
        match self.below(4) {
            0 => WILD[self.below(WILD.len() as u32) as usize],
            1 => self.number() as u32,
            2 => self.below(1100),
            _ => self.below(4),
        }
    }

    /// Below the bound, and once in 60 times anything.
    pub fn mostly_below(&mut self, bound: u32) -> u32 {
        if self.one_in(60) {
            return self.cell();
        }
        self.below(bound)
    }
}
