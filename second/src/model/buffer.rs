//! A row of cells of which the first ones are lent to the calls.

pub struct Buffer {
    pub cells: Vec<u32>,
    pub lent: usize,
}

impl Buffer {
    /// All cells start as zeros.
    pub fn of_zeros(length: usize, lent: usize) -> Buffer {
        Buffer { cells: vec![0; length], lent }
    }

    pub fn lent_cells(&self) -> &[u32] {
        &self.cells[..self.lent]
    }

    pub fn lent_cells_mut(&mut self) -> &mut [u32] {
        &mut self.cells[..self.lent]
    }
}
