//! A row of cells of which the first ones are lent, with guards before and after.

const GUARDS: usize = 64;
const GUARD: u32 = 0xA5A5_5A5A;

pub struct Buffer {
    /// Guards, the cells, guards.
    all: Vec<u32>,
    lent: usize,
}

impl Buffer {
    /// All cells start as zeros.
    pub fn of_zeros(length: usize, lent: usize) -> Buffer {
        let mut all = vec![GUARD; GUARDS + length + GUARDS];
        all[GUARDS..GUARDS + length].fill(0);
        Buffer { all, lent }
    }

    /// All cells, lent or not.
    pub fn cells(&self) -> &[u32] {
        &self.all[GUARDS..self.all.len() - GUARDS]
    }

    pub fn lent(&mut self) -> &mut [u32] {
        &mut self.all[GUARDS..GUARDS + self.lent]
    }

    pub fn lend(&mut self, length: usize) {
        assert!(length <= self.cells().len(), "the buffer has no {length} cells");
        self.lent = length;
    }

    pub fn poke(&mut self, cell: usize, value: u32) {
        let end = self.all.len() - GUARDS;
        self.all[GUARDS..end][cell] = value;
    }

    pub fn guards_stand(&self) -> bool {
        let (before, after) = (&self.all[..GUARDS], &self.all[self.all.len() - GUARDS..]);
        before.iter().chain(after).all(|&cell| cell == GUARD)
    }
}
