//! The store: real cells, looked at segment by segment.

use super::buffer::Buffer;
use crate::rules::element::Element;
use crate::rules::sizes::{MOST_SEGMENTS, SEGMENT_CELLS};
use crate::rules::species::Species;
use std::ops::Range;

/// A segment's number; "Segment numbers, positions and cell numbers are different kinds of number".
#[derive(Clone, Copy, PartialEq, Eq, PartialOrd, Ord, Debug)]
pub struct Segment(pub u16);

impl Segment {
    fn cells(self) -> Range<usize> {
        let first = usize::from(self.0) * SEGMENT_CELLS;
        first..first + SEGMENT_CELLS
    }

    /// The segment that has this cell of the store, if any can.
    pub fn around_cell(cell: usize) -> Option<Segment> {
        let number = cell / SEGMENT_CELLS;
        if number < MOST_SEGMENTS {
            Some(Segment(number as u16))
        } else {
            None
        }
    }
}

pub struct Store {
    pub buffer: Buffer,
}

impl Store {
    const CELLS: usize = 65_600;
    const LENT_AT_FIRST: usize = 65_536;

    pub fn new() -> Store {
        Store { buffer: Buffer::of_zeros(Store::CELLS, Store::LENT_AT_FIRST) }
    }

    /// "floor(length / 64) segments, at most 1,024"; none at all where the store is "under 64 cells".
    pub fn segments_that_fit(&self) -> usize {
        (self.buffer.lent / SEGMENT_CELLS).min(MOST_SEGMENTS)
    }

    /// "it is in cell floor(o·w/32) of that stretch's segment, its top bit (o·w mod 32) bits below the cell's
    /// top bit": the cell, and how far the element's lowest bit is above the cell's lowest.
    fn element_place(segment: Segment, species: Species, offset: u32) -> (usize, u32) {
        let bits_before = offset * species.width();
        let cell = segment.cells().start + (bits_before / 32) as usize;
        (cell, 32 - species.width() - bits_before % 32)
    }

    pub fn element(&self, segment: Segment, species: Species, offset: u32) -> Element {
        let (cell, height) = Store::element_place(segment, species, offset);
        species.element_of(self.buffer.cells[cell] >> height & species.mask())
    }

    /// Puts an element that the species takes.
    pub fn put_element(&mut self, segment: Segment, species: Species, offset: u32, element: Element) {
        let (cell, height) = Store::element_place(segment, species, offset);
        let others = self.buffer.cells[cell] & !(species.mask() << height);
        self.buffer.cells[cell] = others | species.bits_of(element) << height;
    }

    /// "Taken for a stretch that had none, it is zeroed before use."
    pub fn zero_segment(&mut self, segment: Segment) {
        self.buffer.cells[segment.cells()].fill(0);
    }

    /// "that segment is copied to a taken one."
    pub fn copy_segment(&mut self, from: Segment, to: Segment) {
        self.buffer.cells.copy_within(from.cells(), to.cells().start);
    }
}

impl Default for Store {
    fn default() -> Self {
        Store::new()
    }
}

#[cfg(test)]
mod tests {
    use super::{Segment, Store};
    use crate::rules::species::{Species, SPECIES};

    #[test]
    fn width_four_position_ten() {
        let species = Species::from_number(2).expect("a species");
        let mut store = Store::new();
        store.put_element(Segment(0), species, species.offset_of(10), 10);
        assert_eq!(store.buffer.cells[..3], [0, 0x0A00_0000, 0]);
        assert_eq!(store.element(Segment(0), species, species.offset_of(10)), 10);
    }

    /// "signed temperatures ... in 16 bits, the top bit counting minus 32,768", most significant first as in every width.
    #[test]
    fn signed_elements_in_cells() {
        let species = Species::from_number(6).expect("a species");
        let mut store = Store::new();
        for (offset, element) in [(0, -1), (1, -32_768), (2, 32_767), (3, -2), (127, 5)] {
            store.put_element(Segment(0), species, offset, element);
            assert_eq!(store.element(Segment(0), species, offset), element);
        }
        assert_eq!(store.buffer.cells[..3], [0xFFFF_8000, 0x7FFF_FFFE, 0]);
        assert_eq!(store.buffer.cells[62..65], [0, 5, 0]);
    }

    #[test]
    fn neighbours_keep_their_bits() {
        for number in 0..SPECIES as u32 {
            let species = Species::from_number(number).expect("a species");
            let mut store = Store::new();
            store.buffer.cells.fill(u32::MAX);
            store.put_element(Segment(1), species, 3, 0);
            for offset in 0..8 {
                let wanted = if offset == 3 { 0 } else { species.mask() };
                assert_eq!(species.bits_of(store.element(Segment(1), species, offset)), wanted);
            }
        }
    }
}
