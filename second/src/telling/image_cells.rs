//! The cells of images by their form: headings and records looked at and poked, and how many cells are lent.

use super::teller::Teller;
use crate::cells::fields::record as of_record;
use crate::cells::form::{Form, Heading, RecordBits};
use crate::rules::sizes::PLACES;
use crate::text::line::BufferName;

/// A cell of an image, and what it held.
pub type CellBefore = (usize, u32);

impl Teller {
    pub fn heading_of(&self, image: usize) -> Heading {
        Heading::of_cell(self.cell(BufferName::Image(image), 0))
    }

    pub fn put_heading(&mut self, image: usize, heading: Heading) {
        self.poke(BufferName::Image(image), 0, heading.cell());
    }

    pub fn record_in_image(&self, form: Form, image: usize, place: usize) -> RecordBits {
        let cells: Vec<u32> = form.cells_of(place).map(|cell| self.cell(BufferName::Image(image), cell)).collect();
        form.unpacked_record(&cells)
    }

    pub fn put_into_image(&mut self, form: Form, image: usize, place: usize, record: &RecordBits) {
        for (cell, value) in form.cells_of(place).zip(form.packed_record(record)) {
            self.poke(BufferName::Image(image), cell, value);
        }
    }

    /// The places of an image that are used, or those that are not.
    pub fn places_in_image(&self, form: Form, image: usize, used: bool) -> Vec<usize> {
        let is_used = |place| self.record_in_image(form, image, place).numbers[of_record::USED] != 0;
        (0..PLACES).filter(|&place| is_used(place) == used).collect()
    }

    /// Whether there are but empty files in an image, or none.
    pub fn lists_nothing(&self, form: Form, image: usize) -> bool {
        self.places_in_image(form, image, true).into_iter().all(|place| {
            let numbers = self.record_in_image(form, image, place).numbers;
            numbers[of_record::BEGIN] == numbers[of_record::END]
        })
    }

    /// What the first cells of an image hold, as many as an image of this form has.
    pub fn cells_before(&self, form: Form, image: usize) -> Vec<CellBefore> {
        (0..form.length()).map(|cell| (cell, self.cell(BufferName::Image(image), cell))).collect()
    }

    pub fn put_back(&mut self, image: usize, before: &[CellBefore]) {
        for &(cell, value) in before {
            self.poke(BufferName::Image(image), cell, value);
        }
    }

    pub fn lend_image(&mut self, image: usize, length: usize) {
        self.lend(BufferName::Image(image), length);
    }
}
