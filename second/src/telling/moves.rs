//! "From the old image to the new and back": images moved down and up again, compared, and loaded.

use super::mode::Mode;
use super::teller::Teller;
use crate::cells::form::{Form, FORM_1, FORM_2};
use crate::cells::image::SAVED_LENGTH;
use crate::text::line::{BufferName, IMAGES};

/// One of the two moves, from one image buffer to another.
#[derive(Clone, Copy)]
pub struct Move {
    word: &'static str,
    pub from: Form,
    pub to: Form,
    pub image: usize,
    pub other: usize,
}

impl Move {
    pub fn up(image: usize, other: usize) -> Move {
        Move { word: "up", from: FORM_1, to: FORM_2, image, other }
    }

    pub fn down(image: usize, other: usize) -> Move {
        Move { word: "down", from: FORM_2, to: FORM_1, image, other }
    }
}

/// As a number of 32 bits, 64 times this is 0: whoever counts cells so takes it for none.
const NO_CELLS_IN_32_BITS: u32 = 67_108_864;

impl Teller {
    /// Down into a second buffer and up into a third, and then mostly something put otherwise, in the images, in the line or
    /// beside them.
    pub fn move_images(&mut self) {
        let first = self.random.index(IMAGES);
        let step = self.random.pick(&[1, IMAGES - 1]);
        let (second, third) = ((first + step) % IMAGES, (first + 2) % IMAGES);
        if !self.save_to_be_moved(first, third) {
            return;
        }
        let (down, up) = (Move::down(first, second), Move::up(second, third));
        self.lend_for(down);
        self.lend_for(up);
        self.move_there_and_back(down, up);
        if !self.is_calm() && self.lists_nothing(down.from, first) {
            let one = self.random.pick(&[down, up]);
            self.move_with_other_counts(one);
        }
        let most_trials = if self.mode == Mode::Moves { 6 } else { 3 };
        for _ in 0..self.random.between(1, most_trials) {
            self.move_otherwise(down, up);
        }
        self.lend_image(second, SAVED_LENGTH);
        if self.random.chance(60) {
            self.say(format!("load {}", third));
            self.look();
        }
    }

    fn lend_for(&mut self, moved: Move) {
        self.lend_image(moved.image, moved.from.length());
        self.lend_image(moved.other, moved.to.length());
    }

    /// "Up then down gives the same cells; down, where done, then up too."
    fn move_there_and_back(&mut self, down: Move, up: Move) {
        self.soil(down);
        self.move_with_room(down);
        if !self.is_calm() && self.random.chance(25) {
            // "Load takes a 961-cell form 2 image only", and save writes no other.
            let word = self.random.pick(&["load", "load", "save"]);
            self.say(format!("{} {}", word, down.other));
        }
        self.soil(up);
        self.move_with_room(up);
        self.say(format!("sum image{}", down.image));
        if self.random.chance(30) {
            self.move_with_room(Move::down(up.other, up.image));
        }
    }

    /// A calm history pokes nothing, lends no wrong lengths, and has no tables that are unsound.
    fn move_otherwise(&mut self, down: Move, up: Move) {
        let one = self.random.pick(&[down, down, up, up, up]);
        if self.is_calm() {
            return self.move_with_other_numbers(one);
        }
        match self.random.weighted(&[20, 80]) {
            0 => self.move_beside_unfit_tables(one, down),
            _ => self.try_a_move(one, down),
        }
    }

    /// Some cells that a done move writes and a refused one leaves, and the first that it has nothing to do with. A calm
    /// history pokes nothing.
    pub fn soil(&mut self, moved: Move) {
        if self.is_calm() {
            return;
        }
        let length = moved.to.length();
        for cell in [0, self.random.index(length), length - 1, length] {
            if self.random.chance(40) {
                let value = self.a_number();
                self.poke(BufferName::Image(moved.other), cell, value);
            }
        }
    }

    /// For a store that has room for the image's segments.
    pub fn move_with_room(&mut self, moved: Move) {
        let segments = self.heading_of(moved.image).segments;
        let number = self.a_number_with_room_for(segments);
        self.move_for(moved, number);
    }

    pub fn move_for(&mut self, moved: Move, segments_there: u32) {
        self.say(format!("{} {} {} {}", moved.word, moved.image, moved.other, segments_there));
        self.say(format!("sum image{}", moved.other));
        let record = self.random.index(moved.to.record_cells());
        for cell in [0, 1 + record, moved.to.length()] {
            if self.random.chance(20) {
                self.say(format!("peek image{} {}", moved.other, cell));
            }
        }
    }

    /// Just so many, or more: some that are none in fewer bits, or below zero as signed ones.
    fn a_number_with_room_for(&mut self, segments: u32) -> u32 {
        let in_32_bits = NO_CELLS_IN_32_BITS + segments.saturating_sub(1);
        let as_cells = segments * 64;
        let number = match self.random.below(3) {
            0 => segments,
            1 => self.random.pick(&[segments + 1, 1024, 2048, 65_536, as_cells, as_cells + 63]),
            _ => self.random.pick(&[NO_CELLS_IN_32_BITS, in_32_bits, 2_147_483_648, u32::MAX, u32::MAX]),
        };
        number.max(segments)
    }

    /// One less, or much less.
    fn a_number_too_small_for(&mut self, segments: u32) -> u32 {
        let one_less = segments.saturating_sub(1);
        self.random.pick(&[one_less, one_less, 0, segments / 2, segments / 64])
    }

    /// "Judge soundness with the store's segment count given as a number."
    pub fn move_with_other_numbers(&mut self, moved: Move) {
        for _ in 0..self.random.between(1, 2) {
            self.soil(moved);
            self.move_without_room(moved);
            self.move_with_room(moved);
        }
    }

    pub fn move_without_room(&mut self, moved: Move) {
        let segments = self.heading_of(moved.image).segments;
        let number = self.a_number_too_small_for(segments);
        self.move_for(moved, number);
    }
}
