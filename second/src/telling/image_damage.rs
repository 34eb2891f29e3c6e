//! One thing in an image put wrong, or otherwise right, in either form.

use super::teller::Teller;
use super::wrong_values::kind_in_record;
use crate::cells::fields::record as of_record;
use crate::cells::form::{Form, Heading, HEADING_ZERO_BITS};
use crate::rules::sizes::PLACES;
use crate::text::line::BufferName;

impl Teller {
    /// One thing alone, mostly in the heading or in a record that is used.
    pub fn spoil_one_thing(&mut self, form: Form, image: usize) {
        let used = self.places_in_image(form, image, true);
        let spare_bits = if form.spare_bits > 0 { 22 } else { 0 };
        match self.random.weighted(&[10, 10, 11, spare_bits, 20, 8, 50, 8, 3]) {
            0 => self.spoil_the_form_number(image),
            1 => {
                let heading = self.heading_of(image);
                let flip = 1 << self.random.below(HEADING_ZERO_BITS);
                self.put_heading(image, Heading { zero_bits: heading.zero_bits ^ flip, ..heading });
            }
            2 => self.spoil_the_number_of_segments(form, image),
            3 => self.spoil_a_spare_bit(form, image, &used),
            4 if !used.is_empty() => {
                let place = self.random.pick(&used);
                self.flip_a_bit_of_a_field(form, image, place);
            }
            5 if !used.is_empty() => {
                let place = self.random.pick(&used);
                self.try_a_field(form, image, place);
            }
            6 if !used.is_empty() => {
                let place = self.random.pick(&used);
                self.break_a_rule(form, image, place);
            }
            7 => self.spoil_an_unused_record(form, image),
            _ => {
                let cell = self.random.index(form.length());
                self.flip_a_bit(image, cell);
            }
        }
    }

    pub fn flip_a_bit(&mut self, image: usize, cell: usize) {
        let buffer = BufferName::Image(image);
        let flipped = self.cell(buffer, cell) ^ 1 << self.random.below(u32::BITS);
        self.poke(buffer, cell, flipped);
    }

    /// One bit, or the number of the other form, or one that no form has.
    fn spoil_the_form_number(&mut self, image: usize) {
        let heading = self.heading_of(image);
        let flipped = heading.form ^ 1 << self.random.below(8);
        let form = self.random.pick(&[flipped, heading.form ^ 3, heading.form ^ 3, 0, 3]);
        self.put_heading(image, Heading { form, ..heading });
    }

    /// None, too many, just as many as the listed segments need, and one less.
    fn spoil_the_number_of_segments(&mut self, form: Form, image: usize) {
        let used = self.places_in_image(form, image, true);
        let lists = used.iter().flat_map(|&place| {
            let record = self.record_in_image(form, image, place);
            record.numbers[of_record::LIST].to_vec()
        });
        let highest = lists.max().unwrap_or(0);
        let heading = self.heading_of(image);
        let segments = self.random.pick(&[0, 0, 1025, 1025, 2047, highest, highest, highest + 1, 1024]);
        self.put_heading(image, Heading { segments, ..heading });
    }

    /// "16 zero bits at a record's end", whether it is used or not.
    fn spoil_a_spare_bit(&mut self, form: Form, image: usize, used: &[usize]) {
        let place = match used.is_empty() || self.random.chance(50) {
            true => self.random.index(PLACES),
            false => self.random.pick(used),
        };
        let mut record = self.record_in_image(form, image, place);
        record.spare ^= 1 << self.random.below(form.spare_bits);
        self.put_into_image(form, image, place, &record);
    }

    fn flip_a_bit_of_a_field(&mut self, form: Form, image: usize, place: usize) {
        let field = self.a_record_field();
        let mut record = self.record_in_image(form, image, place);
        record.numbers[field] ^= 1 << self.random.below(form.field_bits(field));
        self.put_into_image(form, image, place, &record);
    }

    /// A value that is just right or just wrong for the field.
    pub fn try_a_field(&mut self, form: Form, image: usize, place: usize) {
        let field = self.a_record_field();
        let mut record = self.record_in_image(form, image, place);
        let now = record.numbers[field];
        record.numbers[field] = self.a_trial_value(kind_in_record(field), now) & form.greatest(field);
        self.put_into_image(form, image, place, &record);
    }

    /// One field of a sound record, which then is mostly sound no more.
    fn break_a_rule(&mut self, form: Form, image: usize, place: usize) {
        let mut record = self.record_in_image(form, image, place);
        let (begin, end) = (record.numbers[of_record::BEGIN], record.numbers[of_record::END]);
        let beyond_32_segments = end.saturating_add(33 * 2048);
        let letters = record.numbers[of_record::NAME].iter().take_while(|&&symbol| symbol < 36).count();
        let segments = self.heading_of(image).segments;
        let (field, number) = match self.random.below(9) {
            0 => (of_record::USED, 0),
            // No letter at all where it was the only one, else one that is none.
            1 => (of_record::NAME.start, self.random.pick(&[36, 62, 63])),
            2 => (of_record::NAME.end - 1, if letters < 11 { self.random.below(36) } else { 36 }),
            3 => (of_record::SPECIES, 7),
            4 => (of_record::BEGIN, self.random.pick(&[0, end.saturating_add(1)])),
            5 => (of_record::END, self.random.pick(&[0, begin.saturating_sub(1), beyond_32_segments])),
            6 => (of_record::LIST.start, segments),
            7 => (of_record::LIST.start + 1, record.numbers[of_record::LIST.start]),
            _ => (of_record::LIST.end - 1, 1),
        };
        record.numbers[field] = number & form.greatest(field);
        self.put_into_image(form, image, place, &record);
    }

    /// "an unused record is all zero".
    fn spoil_an_unused_record(&mut self, form: Form, image: usize) {
        let unused = self.places_in_image(form, image, false);
        if !unused.is_empty() {
            let cells = form.cells_of(self.random.pick(&unused));
            let cell = cells.start + self.random.index(cells.len());
            self.flip_a_bit(image, cell);
        }
    }
}
