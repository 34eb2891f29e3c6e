//! The buffers as `lend`, `peek`, `poke` and `sum` know them: how many cells each has, lends and holds.

use super::answering::Desk;
use super::line::BufferName;
use super::words::BadLine;
use crate::cells::tables::Tables;
use crate::model::store::Segment;
use std::borrow::Cow;

/// "h = (h * 31 + c) mod 4294967291".
const SUM_FACTOR: u64 = 31;
const SUM_MODULUS: u64 = 4_294_967_291;

impl Desk {
    /// All cells of a buffer, lent or not; the tables' are made for the asking.
    pub fn cells(&self, buffer: BufferName) -> Cow<'_, [u32]> {
        match buffer {
            BufferName::Store => (&self.store.buffer.cells[..]).into(),
            BufferName::Tables => self.tables.cells().into(),
            BufferName::Image(image) => (&self.images[image].cells[..]).into(),
            BufferName::List(list) => (&self.lists[list].cells[..]).into(),
        }
    }

    /// How many cells of a buffer are lent.
    pub fn lent(&self, buffer: BufferName) -> usize {
        match buffer {
            BufferName::Store => self.store.buffer.lent,
            BufferName::Tables => self.tables.lent,
            BufferName::Image(image) => self.images[image].lent,
            BufferName::List(list) => self.lists[list].lent,
        }
    }

    pub(super) fn lend(&mut self, buffer: BufferName, length: usize) {
        match buffer {
            BufferName::Store => self.store.buffer.lent = length,
            BufferName::Tables => self.tables.lent = length,
            BufferName::Image(image) => self.images[image].lent = length,
            BufferName::List(list) => self.lists[list].lent = length,
        }
    }

    /// A number of cells (`above` 1) or a cell (`above` 0) that the buffer has.
    pub(super) fn index(&self, buffer: BufferName, number: u32, above: usize) -> Result<usize, BadLine> {
        let length = match buffer {
            BufferName::Tables => Tables::CELLS,
            _ => self.cells(buffer).len(),
        };
        match usize::try_from(number) {
            Ok(number) if number < length + above => Ok(number),
            _ => Err(BadLine("no such cell in the buffer")),
        }
    }

    pub(super) fn poke(&mut self, buffer: BufferName, cell: usize, value: u32) {
        match buffer {
            BufferName::Tables => self.tables.poke(&self.store, cell, value),
            BufferName::Image(image) => self.images[image].cells[cell] = value,
            BufferName::List(list) => self.lists[list].cells[cell] = value,
            BufferName::Store => {
                self.store.buffer.cells[cell] = value;
                if let Some(segment) = Segment::around_cell(cell) {
                    self.tables.store_was_poked(&self.store, segment);
                }
            }
        }
    }

    pub(super) fn sum(&self, buffer: BufferName) -> u64 {
        let cells = self.cells(buffer);
        let lent_cells = &cells[..self.lent(buffer)];
        lent_cells.iter().fold(0, |sum, &cell| (sum * SUM_FACTOR + u64::from(cell)) % SUM_MODULUS)
    }
}
