//! Images that are worth a move: with records of every shape, and mostly none that the old form has no bits for.

use super::forging::Shape;
use super::positions::{bounds_ending_at, lowered, OLD_GREATEST_END};
use super::teller::Teller;
use crate::cells::fields::record as of_record;
use crate::cells::form::RecordBits;
use crate::cells::image::{SAVED_FORM, SAVED_LENGTH};
use crate::rules::species::{Species, SPECIES};

/// More records than this are not lowered by hand.
const MOST_LOWERED: usize = 6;

/// Document 02: "Species 6 moves both ways".
const SIGNED: u32 = SPECIES as u32 - 1;

impl Teller {
    /// An image saved and then furnished by hand; whether it could be saved. The other buffer keeps the catalogue meanwhile.
    pub fn save_to_be_moved(&mut self, image: usize, kept: usize) -> bool {
        self.lend_image(image, SAVED_LENGTH);
        if !self.say(format!("save {}", image)).starts_with("done") {
            return false;
        }
        // A calm history pokes nothing, and so has no far positions either.
        if self.is_calm() {
            return true;
        }
        if self.wide_places_in(image).len() > MOST_LOWERED || self.random.chance(15) {
            self.save_a_fresh_start(image, kept);
        }
        let nothing_there = self.places_in_image(SAVED_FORM, image, true).is_empty();
        if self.random.chance(if nothing_there { 65 } else { 40 }) {
            self.furnish(image);
        }
        if self.random.chance(90) {
            self.lower_wide_records(image);
        }
        true
    }

    /// The image of an empty catalogue; what there was is loaded again.
    pub fn save_a_fresh_start(&mut self, image: usize, kept: usize) {
        self.lend_image(kept, SAVED_LENGTH);
        self.say(format!("save {}", kept));
        self.say("fresh");
        self.say(format!("save {}", image));
        self.say(format!("load {}", kept));
    }

    /// One more record, of free segments or empty.
    fn furnish(&mut self, image: usize) {
        let number = match self.random.chance(35) {
            true => SIGNED,
            false => self.a_known_species(),
        };
        let place = match self.places_in_image(SAVED_FORM, image, false)[..] {
            [] => return,
            ref unused => self.random.pick(unused),
        };
        if let Some(species) = Species::from_number(number) {
            let held = self.random.pick(&[0, 1, 1, 2, 3, 32]);
            let shape = self.a_shape_of(species, held).unwrap_or_else(|| self.an_empty_shape(species));
            let numbers = self.a_record_of(&shape);
            self.put_into_image(SAVED_FORM, image, place, &RecordBits::with_zero_bits(numbers));
        }
    }

    fn an_empty_shape(&mut self, species: Species) -> Shape {
        let position = self.a_trial_position(1).max(1);
        Shape { species, begin: position, end: position, segments: Vec::new() }
    }

    /// The places of records that end beyond what the old form has bits for.
    fn wide_places_in(&self, image: usize) -> Vec<usize> {
        let used = self.places_in_image(SAVED_FORM, image, true).into_iter();
        let end = |place| self.record_in_image(SAVED_FORM, image, place).numbers[of_record::END];
        used.filter(|&place| end(place) > OLD_GREATEST_END).collect()
    }

    /// To the lowest positions, or to the highest that the old form has bits for.
    fn lower_wide_records(&mut self, image: usize) {
        for place in self.wide_places_in(image) {
            let mut record = self.record_in_image(SAVED_FORM, image, place);
            let (begin, end) = (record.numbers[of_record::BEGIN], record.numbers[of_record::END]);
            if let Some(species) = Species::from_number(record.numbers[of_record::SPECIES]) {
                let (begin, end) = match self.random.chance(60) {
                    true => lowered(species, begin, end),
                    false if begin == end => (OLD_GREATEST_END, OLD_GREATEST_END),
                    false => bounds_ending_at(species, begin, end, OLD_GREATEST_END),
                };
                record.numbers[of_record::BEGIN] = begin;
                record.numbers[of_record::END] = end;
                self.put_into_image(SAVED_FORM, image, place, &record);
            }
        }
    }
}
