//! Numbers in a row of bits, "most significant first", into cells and out of them. All widths are known when this is compiled, and so are then all shifts.

/// Writes numbers into cells.
pub struct BitWriter<'a, const CELLS: usize> {
    cells: &'a mut [u32; CELLS],
    /// How many cells are written, and the last bits, which do not fill one yet.
    written: usize,
    pending: u128,
    bits: u32,
}

impl<'a, const CELLS: usize> BitWriter<'a, CELLS> {
    pub fn new(cells: &'a mut [u32; CELLS]) -> Self {
        BitWriter { cells, written: 0, pending: 0, bits: 0 }
    }

    /// A number of so many bits, at most 64.
    #[inline(always)]
    pub fn put(&mut self, width: u32, number: u64) {
        self.pending = self.pending << width | u128::from(number);
        self.bits += width;
        while self.bits >= 32 {
            self.bits -= 32;
            self.cells[self.written] = (self.pending >> self.bits) as u32;
            self.written += 1;
        }
    }

    /// Numbers of so many bits each, all together at most 64.
    #[inline(always)]
    pub fn put_all(&mut self, width: u32, numbers: &[u32]) {
        let joined = numbers.iter().fold(0, |joined, &number| joined << width | u64::from(number));
        self.put(width * numbers.len() as u32, joined);
    }
}

/// Reads numbers from cells.
pub struct BitReader<'a, const CELLS: usize> {
    cells: &'a [u32; CELLS],
    /// How many cells are read, and the last bits, which are not taken yet.
    read: usize,
    pending: u128,
    bits: u32,
}

impl<'a, const CELLS: usize> BitReader<'a, CELLS> {
    pub fn new(cells: &'a [u32; CELLS]) -> Self {
        BitReader { cells, read: 0, pending: 0, bits: 0 }
    }

    /// The next so many bits, at most 64.
    #[inline(always)]
    pub fn take(&mut self, width: u32) -> u64 {
        while self.bits < width {
            self.pending = self.pending << 32 | u128::from(self.cells[self.read]);
            self.bits += 32;
            self.read += 1;
        }
        self.bits -= width;
        (self.pending >> self.bits) as u64 & u64::MAX >> (64 - width)
    }

    /// Numbers of so many bits each, all together at most 64.
    #[inline(always)]
    pub fn take_all(&mut self, width: u32, numbers: &mut [u32]) {
        let mut joined = self.take(width * numbers.len() as u32);
        for number in numbers.iter_mut().rev() {
            *number = (joined & u64::MAX >> (64 - width)) as u32;
            joined >>= width;
        }
    }
}
