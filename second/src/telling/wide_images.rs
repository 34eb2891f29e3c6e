//! "A sound form 2 image moves down exactly if every begin and end is at most 16,777,215, else refusal 24": records put about
//! that limit and far beyond it, alone and with something else wrong too.

use super::moves::Move;
use super::positions::{bounds_ending_at, OLD_GREATEST_END};
use super::teller::Teller;
use crate::cells::fields::record as of_record;
use crate::cells::form::RecordBits;
use crate::rules::species::Species;

impl Teller {
    pub fn move_a_wide_image(&mut self, down: Move) {
        let used = self.places_in_image(down.from, down.image, true);
        if used.is_empty() {
            return self.move_with_room(down);
        }
        let before = self.cells_before(down.from, down.image);
        let place = self.random.pick(&used);
        for _ in 0..self.random.between(1, 3) {
            let mut record = self.record_in_image(down.from, down.image, place);
            self.put_about_the_old_limit(&mut record);
            self.put_into_image(down.from, down.image, place, &record);
            self.soil(down);
            self.move_with_room(down);
            if self.random.chance(70) {
                self.move_with_a_second_fault(down);
            }
        }
        self.put_back(down.image, &before);
        self.move_with_room(down);
    }

    /// "22 comes before 24."
    fn move_with_a_second_fault(&mut self, down: Move) {
        self.soil(down);
        match self.random.weighted(&[50, 25, 25]) {
            0 => {
                let wide = self.cells_before(down.from, down.image);
                self.spoil_one_thing(down.from, down.image);
                self.move_with_room(down);
                self.put_back(down.image, &wide);
            }
            1 => self.move_without_room(down),
            _ => self.move_with_another_length(down),
        }
    }

    /// An empty file begins there; another one ends there, and mostly begins before the limit still.
    fn put_about_the_old_limit(&mut self, record: &mut RecordBits) {
        let end = self.an_end_about_the_old_limit();
        let numbers = &mut record.numbers;
        let bounds = (numbers[of_record::BEGIN], numbers[of_record::END]);
        let (begin, end) = match Species::from_number(numbers[of_record::SPECIES]) {
            Some(species) if bounds.0 < bounds.1 => bounds_ending_at(species, bounds.0, bounds.1, end),
            _ => (end, end),
        };
        numbers[of_record::BEGIN] = begin;
        numbers[of_record::END] = end;
    }

    fn an_end_about_the_old_limit(&mut self) -> u32 {
        match self.random.weighted(&[8, 26, 26, 12, 8, 20]) {
            0 => OLD_GREATEST_END - 1,
            1 => OLD_GREATEST_END,
            2 => OLD_GREATEST_END + 1,
            // The position before it is the last of its stretch, in every species.
            3 => OLD_GREATEST_END + 2,
            4 => OLD_GREATEST_END + 3,
            _ => self.a_far_position(),
        }
    }
}
