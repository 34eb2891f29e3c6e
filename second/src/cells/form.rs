//! The two forms of a catalogue image, described once: which numbers stand in it, and in how many bits each, "bit-packed,
//! most significant first".

use super::bits::{packed, unpacked};
use super::fields::record as of_record;
use crate::rules::sizes::{MOST_HELD, NAME_SYMBOLS, PLACES};
use std::ops::Range;

/// "Cell 0: form 8 bits ..., number of segments 11 bits, 13 zero bits."
const HEADING_CELLS: usize = 1;
pub const HEADING_ZERO_BITS: u32 = 13;
const HEADING_BITS: [u32; 3] = [8, 11, HEADING_ZERO_BITS];

/// "used 1, name 12 x 6, owner 3, private 1, species 3, begin ..., end ..., then 32 segment numbers of 10 bits by rising
/// stretch."
const FLAG_BITS: u32 = 1;
const SYMBOL_BITS: u32 = 6;
const OWNER_BITS: u32 = 3;
const SPECIES_BITS: u32 = 3;
const SEGMENT_BITS: u32 = 10;

/// What the bits called zero are.
pub const ZERO: u32 = 0;

/// What one form has otherwise than another.
#[derive(Clone, Copy, PartialEq, Eq, Debug)]
pub struct Form {
    pub number: u32,
    /// The bits of a begin and of an end, each.
    pub bound_bits: u32,
    /// The zero bits at a record's end.
    pub spare_bits: u32,
}

/// Document 01: "897 cells", "form 8 bits (1)", "begin 24, end 24", and no bits after the segment numbers.
pub const FORM_1: Form = Form { number: 1, bound_bits: 24, spare_bits: 0 };

/// Document 02: "Image form 2 has begin and end of 32 bits each and 16 zero bits at a record's end: 480 bits, 961 cells in
/// all, form number 2 in cell 0."
pub const FORM_2: Form = Form { number: 2, bound_bits: 32, spare_bits: 16 };

/// What stands in cell 0.
#[derive(Clone, Copy, PartialEq, Eq, Debug)]
pub struct Heading {
    pub form: u32,
    pub segments: u32,
    pub zero_bits: u32,
}

impl Heading {
    pub fn cell(self) -> u32 {
        packed(&[self.form, self.segments, self.zero_bits], &HEADING_BITS)[0]
    }

    pub fn of_cell(cell: u32) -> Heading {
        let numbers = unpacked(&[cell], &HEADING_BITS);
        Heading { form: numbers[0], segments: numbers[1], zero_bits: numbers[2] }
    }
}

/// What stands in the cells of one record.
#[derive(Clone, Copy, PartialEq, Eq, Debug)]
pub struct RecordBits {
    pub numbers: [u32; of_record::COUNT],
    pub spare: u32,
}

impl RecordBits {
    /// "every bit called zero here is zero".
    pub fn with_zero_bits(numbers: [u32; of_record::COUNT]) -> RecordBits {
        RecordBits { numbers, spare: ZERO }
    }
}

impl Form {
    pub const fn record_bits(&self) -> u32 {
        let name = NAME_SYMBOLS as u32 * SYMBOL_BITS;
        let list = MOST_HELD as u32 * SEGMENT_BITS;
        2 * FLAG_BITS + name + OWNER_BITS + SPECIES_BITS + 2 * self.bound_bits + list + self.spare_bits
    }

    pub const fn record_cells(&self) -> usize {
        (self.record_bits() / u32::BITS) as usize
    }

    /// The cells of an image in this form.
    pub const fn length(&self) -> usize {
        HEADING_CELLS + PLACES * self.record_cells()
    }

    /// The cells of the record at a place.
    pub fn cells_of(&self, place: usize) -> Range<usize> {
        let start = HEADING_CELLS + self.record_cells() * place;
        start..start + self.record_cells()
    }

    /// The bits of one of a record's fifty numbers.
    pub fn field_bits(&self, field: usize) -> u32 {
        match field {
            of_record::USED | of_record::PRIVATE => FLAG_BITS,
            of_record::OWNER => OWNER_BITS,
            of_record::SPECIES => SPECIES_BITS,
            of_record::BEGIN | of_record::END => self.bound_bits,
            _ if of_record::NAME.contains(&field) => SYMBOL_BITS,
            _ => SEGMENT_BITS,
        }
    }

    /// The greatest number that there are bits for in one of a record's fifty.
    pub fn greatest(&self, field: usize) -> u32 {
        u32::MAX >> (u32::BITS - self.field_bits(field))
    }

    /// The bits of all numbers of a record, and of what follows them.
    fn widths(&self) -> Vec<u32> {
        let fields = (0..of_record::COUNT).map(|field| self.field_bits(field));
        fields.chain([self.spare_bits]).collect()
    }

    pub fn packed_record(&self, record: &RecordBits) -> Vec<u32> {
        let mut numbers = record.numbers.to_vec();
        numbers.push(record.spare);
        packed(&numbers, &self.widths())
    }

    pub fn unpacked_record(&self, cells: &[u32]) -> RecordBits {
        let found = unpacked(cells, &self.widths());
        let mut numbers = [0; of_record::COUNT];
        numbers.copy_from_slice(&found[..of_record::COUNT]);
        RecordBits { numbers, spare: found[of_record::COUNT] }
    }
}

#[cfg(test)]
mod tests {
    use super::*;

    #[test]
    fn the_sizes_of_both_forms() {
        for (form, bits, cells, length) in [(FORM_1, 448, 14, 897), (FORM_2, 480, 15, 961)] {
            assert_eq!(form.widths().iter().sum::<u32>(), form.record_bits());
            assert_eq!((form.record_bits(), form.record_cells(), form.length()), (bits, cells, length));
            assert_eq!(form.cells_of(PLACES - 1).end, form.length());
        }
        assert_eq!(HEADING_BITS.iter().sum::<u32>(), u32::BITS);
    }

    #[test]
    fn the_greatest_bounds() {
        for bound in [of_record::BEGIN, of_record::END] {
            assert_eq!((FORM_1.greatest(bound), FORM_2.greatest(bound)), (16_777_215, 4_294_967_295));
        }
    }

    #[test]
    fn a_record_there_and_back() {
        for (form, spares) in [(FORM_1, &[0][..]), (FORM_2, &[0, 1, 0x8000, 0xFFFF])] {
            let mut numbers = [0; of_record::COUNT];
            for (field, number) in numbers.iter_mut().enumerate() {
                *number = (field as u32).wrapping_mul(2_654_435_761) & form.greatest(field);
            }
            for &spare in spares {
                let record = RecordBits { numbers, spare };
                let cells = form.packed_record(&record);
                assert_eq!(cells.len(), form.record_cells());
                assert_eq!(form.unpacked_record(&cells), record);
            }
        }
    }

    #[test]
    fn the_last_bits_of_a_record() {
        let mut record = RecordBits::with_zero_bits([0; of_record::COUNT]);
        record.numbers[of_record::COUNT - 1] = 0x3FF;
        assert_eq!(FORM_1.packed_record(&record)[13], 0x0000_03FF);
        record.spare = 0x8001;
        assert_eq!(FORM_2.packed_record(&record)[14], 0x03FF_8001);
    }

    /// "0x02100000 first; the cells printed in 01 stay true of form 1".
    #[test]
    fn a_heading_there_and_back() {
        for (form, cell) in [(FORM_1, 0x0110_0000), (FORM_2, 0x0210_0000)] {
            assert_eq!(Heading { form: form.number, segments: 128, zero_bits: ZERO }.cell(), cell);
        }
        for cell in [0x0210_0000, 0x0110_0000, 0xFFFF_FFFF, 0x0080_1FFF, 0] {
            assert_eq!(Heading::of_cell(cell).cell(), cell);
        }
    }
}
