//! "The catalogue image": what it says, which is the same in every form, and its cells, which are not.

use super::fields::record as of_record;
use super::form::{Form, Heading, RecordBits, FORM_2, ZERO};
use super::judging::Outlines;
use super::outline::{judged_record, Unsound};
use super::writing::record_numbers;
use crate::model::catalogue::Catalogue;
use crate::model::store::Store;
use crate::rules::sizes::{MOST_SEGMENTS, PLACES};

/// Document 02: "Save writes form 2. Load takes a 961-cell form 2 image only". Other forms are moved to it first.
pub const SAVED_FORM: Form = FORM_2;

pub const SAVED_LENGTH: usize = SAVED_FORM.length();

/// The number of segments and each record's fifty numbers.
#[derive(Clone, PartialEq, Eq, Debug)]
pub struct Image {
    segments: u32,
    records: Vec<[u32; of_record::COUNT]>,
}

impl Image {
    /// "Saving writes the records only, whatever is open."
    pub fn of(catalogue: &Catalogue) -> Image {
        let records = catalogue.records.iter().map(|record| record_numbers(record.as_ref()));
        Image { segments: catalogue.segments as u32, records: records.collect() }
    }

    /// What these cells say, if they have the length, the form number and the zero bits of this form. The bits at a record's
    /// end are called zero whether it is used or not.
    pub fn read(form: Form, cells: &[u32]) -> Result<Image, Unsound> {
        if cells.len() != form.length() {
            return Err(Unsound);
        }
        let heading = Heading::of_cell(cells[0]);
        let records: Vec<RecordBits> =
            (0..PLACES).map(|place| form.unpacked_record(&cells[form.cells_of(place)])).collect();
        let zero_bits = heading.zero_bits == ZERO && records.iter().all(|record| record.spare == ZERO);
        if heading.form != form.number || !zero_bits {
            return Err(Unsound);
        }
        Ok(Image { segments: heading.segments, records: records.into_iter().map(|record| record.numbers).collect() })
    }

    /// All other rules of soundness, over a store of so many segments: "1 to 1,024 segments, fitting the store; names not
    /// empty, ...; the two name rules." Nothing is open.
    pub fn judged(&self, segments_there: u32) -> Result<Outlines, Unsound> {
        let segments = self.segments as usize;
        if !(1..=MOST_SEGMENTS).contains(&segments) || self.segments > segments_there {
            return Err(Unsound);
        }
        let records = self.records.iter().map(|numbers| judged_record(numbers, segments));
        let records = records.collect::<Result<Vec<_>, Unsound>>()?;
        let outlines = Outlines { segments, records, openings: Vec::new() };
        outlines.check()?;
        Ok(outlines)
    }

    /// Whether this form has bits enough for every begin and end; it has for the other numbers of a sound image.
    pub fn fits(&self, form: Form) -> bool {
        let bounds = [of_record::BEGIN, of_record::END];
        self.records.iter().all(|numbers| bounds.iter().all(|&bound| numbers[bound] <= form.greatest(bound)))
    }

    /// "every bit called zero here is zero".
    pub fn cells(&self, form: Form) -> Vec<u32> {
        let heading = Heading { form: form.number, segments: self.segments, zero_bits: ZERO };
        let mut cells = vec![heading.cell()];
        for &numbers in &self.records {
            cells.extend(form.packed_record(&RecordBits::with_zero_bits(numbers)));
        }
        cells
    }
}

/// The catalogue that a sound image says, its elements taken from the store.
pub fn catalogue_of(form: Form, cells: &[u32], store: &Store) -> Result<Catalogue, Unsound> {
    let outlines = Image::read(form, cells)?.judged(store.segments_that_fit() as u32)?;
    Ok(outlines.catalogue(store))
}

#[cfg(test)]
mod tests {
    use super::*;
    use crate::cells::form::FORM_1;

    fn image_of_segments(segments: u32) -> Image {
        Image { segments, records: vec![[0; of_record::COUNT]; PLACES] }
    }

    #[test]
    fn cells_and_back() {
        for form in [FORM_1, FORM_2] {
            let image = Image::of(&Catalogue::empty(128));
            let cells = image.cells(form);
            assert_eq!((cells.len(), cells[0]), (form.length(), form.number << 24 | 0x0010_0000));
            assert_eq!(Image::read(form, &cells), Ok(image));
            for other in [FORM_1, FORM_2] {
                assert_eq!(Image::read(other, &cells).is_ok(), other == form);
            }
        }
    }

    /// As many as the store has, and no more than there can be.
    #[test]
    fn numbers_of_segments() {
        let sound = |segments, segments_there| image_of_segments(segments).judged(segments_there).is_ok();
        for segments in [1, 2, 1023, 1024] {
            assert!(sound(segments, segments) && sound(segments, segments + 1) && sound(segments, u32::MAX));
            assert!(!sound(segments, segments - 1) && !sound(segments, 0));
        }
        for segments in [0, 1025, 2047] {
            assert!(!sound(segments, segments) && !sound(segments, u32::MAX));
        }
    }

    /// A begin alone is never above an end that is not, but it is looked at all the same.
    #[test]
    fn what_fits_the_old_form() {
        for (begin, end, fits) in [(1, 16_777_215, true), (1, 16_777_216, false), (16_777_216, 1, false)] {
            let mut image = image_of_segments(1);
            image.records[PLACES - 1][of_record::BEGIN] = begin;
            image.records[PLACES - 1][of_record::END] = end;
            assert_eq!((image.fits(FORM_1), image.fits(FORM_2)), (fits, true));
        }
    }
}
