//! Moves with one thing otherwise: a length, a number, something in the image, or what lies beside it.

use super::moves::Move;
use super::teller::Teller;
use crate::cells::fields::{opening_cells, record as of_record, SEGMENTS_CELL, TABLES_LENGTH};
use crate::cells::form::Heading;
use crate::rules::sizes::USERS;
use crate::text::line::BufferName;

impl Teller {
    /// Of a move that can be done, or of the one down, as no other can be too wide.
    pub fn try_a_move(&mut self, moved: Move, down: Move) {
        match self.random.weighted(&[15, 16, 34, 15, 50]) {
            0 => self.move_with_other_numbers(moved),
            1 => self.move_with_other_lengths(moved),
            2 => self.move_with_one_thing_wrong(moved),
            3 => self.move_twins(moved),
            _ => self.move_a_wide_image(down),
        }
    }

    /// "A lent image of the wrong length, either one, is 22".
    fn move_with_other_lengths(&mut self, moved: Move) {
        for _ in 0..self.random.between(1, 3) {
            self.move_with_another_length(moved);
        }
        if self.random.chance(40) {
            // Both as the other move wants them.
            self.lend_image(moved.image, moved.to.length());
            self.lend_image(moved.other, moved.from.length());
            self.move_with_room(moved);
            self.lend_image(moved.image, moved.from.length());
            self.lend_image(moved.other, moved.to.length());
        }
        self.move_with_room(moved);
    }

    pub fn move_with_another_length(&mut self, moved: Move) {
        let (right, others) = (moved.from.length(), moved.to.length());
        let (image, right, others) = match self.random.chance(50) {
            true => (moved.image, right, others),
            false => (moved.other, others, right),
        };
        let wrong = self.random.pick(&[right - 1, right + 1, others, others, 0, 1, 1_024]);
        self.soil(moved);
        self.lend_image(image, wrong);
        self.move_with_room(moved);
        self.lend_image(image, right);
        self.say(format!("sum image{}", moved.other));
    }

    fn move_with_one_thing_wrong(&mut self, moved: Move) {
        let before = self.cells_before(moved.from, moved.image);
        for _ in 0..self.random.between(2, 4) {
            self.spoil_one_thing(moved.from, moved.image);
            self.soil(moved);
            self.move_with_room(moved);
            self.put_back(moved.image, &before);
        }
        self.move_with_room(moved);
    }

    /// "1 to 1,024 segments": of an image that lists none, no other rule is broken by another number.
    pub fn move_with_other_counts(&mut self, moved: Move) {
        let heading = self.heading_of(moved.image);
        let too_many = self.random.between(1025, 2047);
        for segments in [0, too_many, heading.segments] {
            self.put_heading(moved.image, Heading { segments, ..heading });
            self.soil(moved);
            self.move_with_room(moved);
        }
    }

    /// "No two records of one owner have one name; no two public records have one name": a second record of the name, which is
    /// empty and another's, and then the same one's, or as public as the first.
    fn move_twins(&mut self, moved: Move) {
        let used = self.places_in_image(moved.from, moved.image, true);
        let unused = self.places_in_image(moved.from, moved.image, false);
        if used.is_empty() || unused.is_empty() {
            return;
        }
        let before = self.cells_before(moved.from, moved.image);
        let (place, twin_place) = (self.random.pick(&used), self.random.pick(&unused));
        let one = self.record_in_image(moved.from, moved.image, place);
        let mut twin = one;
        twin.numbers[of_record::OWNER] ^= 1 << self.random.below(3);
        twin.numbers[of_record::PRIVATE] = 1;
        twin.numbers[of_record::END] = twin.numbers[of_record::BEGIN];
        twin.numbers[of_record::LIST].fill(0);
        self.put_into_image(moved.from, moved.image, twin_place, &twin);
        self.soil(moved);
        self.move_with_room(moved);
        // Where the first is private, the second may well be public.
        let (field, value) = match self.random.chance(if one.numbers[of_record::PRIVATE] == 0 { 70 } else { 20 }) {
            true => (of_record::PRIVATE, 0),
            false => (of_record::OWNER, one.numbers[of_record::OWNER]),
        };
        twin.numbers[field] = value;
        self.put_into_image(moved.from, moved.image, twin_place, &twin);
        self.soil(moved);
        self.move_with_room(moved);
        self.put_back(moved.image, &before);
        self.move_with_room(moved);
    }

    /// Neither tables nor store are lent to a move, so it is answered as ever where every other call is refused.
    pub fn move_beside_unfit_tables(&mut self, moved: Move, down: Move) {
        let user = self.random.index(USERS);
        let (store, tables) = (self.lent(BufferName::Store), self.lent(BufferName::Tables));
        let cell = self.random.pick(&[SEGMENTS_CELL, opening_cells(user, 0).start]);
        let before = self.cell(BufferName::Tables, cell);
        match self.random.below(3) {
            0 => self.poke(BufferName::Tables, cell, u32::MAX),
            1 => {
                let length = self.random.pick(&[0, TABLES_LENGTH - 1, TABLES_LENGTH + 1]);
                self.lend(BufferName::Tables, length);
            }
            _ => {
                let length = self.random.pick(&[0, 1, 63]);
                self.lend(BufferName::Store, length);
            }
        }
        self.say(format!("free {}", user));
        self.move_with_room(moved);
        self.try_a_move(moved, down);
        self.say("sum tables");
        self.poke(BufferName::Tables, cell, before);
        self.lend(BufferName::Tables, tables);
        self.lend(BufferName::Store, store);
        self.say("sum store");
    }
}
