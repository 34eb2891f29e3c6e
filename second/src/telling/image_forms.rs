//! "Load takes a 961-cell form 2 image only": images that are sound but for their form, their length or the zero bits at a
//! record's end, and sound ones of far positions.

use super::moves::Move;
use super::positions::lifted;
use super::teller::Teller;
use crate::cells::fields::record as of_record;
use crate::cells::form::{Heading, FORM_1};
use crate::cells::image::{Image, SAVED_FORM, SAVED_LENGTH};
use crate::rules::species::Species;
use crate::text::line::{BufferName, IMAGES};

/// More records than this are not written by hand.
const MOST_WRITTEN: usize = 3;

impl Teller {
    pub fn offer_images(&mut self) {
        for _ in 0..self.random.between(1, 3) {
            let image = self.random.index(IMAGES);
            if self.say(format!("save {}", image)).starts_with("refused") {
                return;
            }
            match self.random.weighted(&[20, 35, 20, 15, 30]) {
                0 => self.offer_another_form_number(image),
                1 => self.offer_a_set_spare_bit(image),
                2 => self.offer_other_lengths(image),
                3 => self.offer_form_1(image),
                _ => self.lift_a_record(image),
            }
        }
        self.look();
    }

    /// One cell put otherwise, and mostly back again.
    fn load_with(&mut self, image: usize, cell: usize, value: u32) {
        let buffer = BufferName::Image(image);
        let before = self.cell(buffer, cell);
        self.poke(buffer, cell, value);
        self.say(format!("load {}", image));
        if self.random.chance(80) {
            self.poke(buffer, cell, before);
            self.say(format!("load {}", image));
        }
    }

    fn offer_another_form_number(&mut self, image: usize) {
        let heading = self.heading_of(image);
        let form = self.random.pick(&[FORM_1.number, FORM_1.number, 0, 3, 130, 255]);
        self.load_with(image, 0, Heading { form, ..heading }.cell());
    }

    /// In a record that is used or in one that is not.
    fn offer_a_set_spare_bit(&mut self, image: usize) {
        let place = match self.random.chance(50) {
            true => self.a_used_place(),
            false => self.a_place(),
        };
        let last_cell = SAVED_FORM.cells_of(place).end - 1;
        let flip = 1 << self.random.below(SAVED_FORM.spare_bits);
        let value = self.cell(BufferName::Image(image), last_cell) ^ flip;
        self.load_with(image, last_cell, value);
    }

    fn offer_other_lengths(&mut self, image: usize) {
        for length in [FORM_1.length(), SAVED_LENGTH - 1, SAVED_LENGTH + 1] {
            self.lend_image(image, length);
            let word = self.random.pick(&["save", "load", "load"]);
            self.say(format!("{} {}", word, image));
        }
        self.lend_image(image, SAVED_LENGTH);
        self.say(format!("load {}", image));
    }

    /// An image as it was saved before document 02 raised the limit, lent in its own length and in the new one, and moved up.
    /// Where there are many records it is that of a fresh start.
    fn offer_form_1(&mut self, image: usize) {
        let records = self.catalogue().map_or(0, |catalogue| catalogue.records.iter().flatten().count());
        let (kept, other) = ((image + 1) % IMAGES, (image + 2) % IMAGES);
        self.say(format!("save {}", kept));
        self.say("fresh");
        self.say(format!("save {}", image));
        if records <= MOST_WRITTEN {
            self.say(format!("load {}", kept));
        }
        let cells = match self.catalogue() {
            Some(catalogue) => Image::of(catalogue).cells(FORM_1),
            None => return,
        };
        for (cell, value) in cells.into_iter().enumerate() {
            self.poke(BufferName::Image(image), cell, value);
        }
        self.lend_image(image, FORM_1.length());
        self.say(format!("load {}", image));
        self.move_with_room(Move::up(image, other));
        self.lend_image(image, SAVED_LENGTH);
        for offered in [image, other, kept] {
            self.say(format!("load {}", offered));
        }
    }

    /// A record put to far positions, or one whose end is then none.
    fn lift_a_record(&mut self, image: usize) {
        let place = self.a_used_place();
        let mut record = self.record_in_image(SAVED_FORM, image, place);
        if record.numbers[of_record::USED] == 0 {
            return;
        }
        self.lift_bounds(&mut record.numbers);
        self.put_into_image(SAVED_FORM, image, place, &record);
        self.say(format!("sum image{}", image));
        self.say(format!("load {}", image));
        self.look();
        self.read_back();
    }

    /// The bounds of an empty file go anywhere, those of others by whole stretches.
    fn lift_bounds(&mut self, numbers: &mut [u32; of_record::COUNT]) {
        let (begin, end) = (numbers[of_record::BEGIN], numbers[of_record::END]);
        let (far_begin, far_end) = match Species::from_number(numbers[of_record::SPECIES]) {
            Some(species) if begin < end => lifted(species, begin, end),
            _ => {
                let position = self.a_far_position();
                (position, position)
            }
        };
        numbers[of_record::BEGIN] = far_begin;
        numbers[of_record::END] = match self.random.chance(15) {
            true => self.random.pick(&[0, far_begin - 1, end]),
            false => far_end,
        };
    }
}
