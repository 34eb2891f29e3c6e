//! Cells of tables and images put wrong, or otherwise right, and often put back again.

use super::arguments::text_of;
use super::teller::Teller;
use super::wrong_values::{kind_in_opening, kind_in_record};
use crate::cells::fields::{self, opening as of_opening, record as of_record, TABLES_LENGTH};
use crate::cells::image::{SAVED_FORM, SAVED_LENGTH};
use crate::rules::sizes::PLACES;
use crate::text::line::BufferName;

impl Teller {
    /// A place that has a record, mostly one that is open.
    pub fn a_used_place(&mut self) -> usize {
        let opened: Vec<usize> = match self.catalogue() {
            Some(catalogue) => catalogue.openings().filter_map(|opening| opening.place).collect(),
            None => Vec::new(),
        };
        if !opened.is_empty() && self.random.chance(60) {
            return self.random.pick(&opened);
        }
        match self.a_record() {
            Some((place, _)) if self.random.chance(85) => place,
            _ => self.random.index(PLACES),
        }
    }

    /// The first cell of an opening's part of the tables, mostly of an open entry.
    pub fn start_of_an_opening(&mut self) -> usize {
        let (user, entry) = self.an_open_entry();
        fields::opening_cells(user as usize % 8, entry as usize % 4).start
    }

    /// Damage shows most where old files are open.
    pub fn open_some_records(&mut self) {
        let few = self.catalogue().map_or(false, |catalogue| catalogue.openings().count() < 4);
        for _ in 0..if few { 3 } else { 0 } {
            if let Some((_, record)) = self.a_record() {
                let user = match self.random.chance(70) {
                    true => record.owner as u32,
                    false => self.a_user(),
                };
                let entry = self.closed_entry_of(user);
                let word = self.random.pick(&["read", "work"]);
                self.open_old(word, user, entry, &text_of(&record.name));
            }
        }
    }

    /// A cell of the tables and another value for it.
    fn a_wrong_cell(&mut self) -> (usize, u32) {
        match self.random.weighted(&[34, 54, 5, 7]) {
            0 => {
                let field = self.a_record_field();
                let cell = fields::record_cells(self.a_used_place()).start + field;
                let now = self.cell(BufferName::Tables, cell);
                (cell, self.a_trial_value(kind_in_record(field), now))
            }
            1 => {
                let field = self.an_opening_field();
                let cell = self.start_of_an_opening() + field;
                let now = self.cell(BufferName::Tables, cell);
                (cell, self.a_trial_value(kind_in_opening(field), now))
            }
            2 => {
                let now = self.cell(BufferName::Tables, fields::SEGMENTS_CELL);
                (
                    fields::SEGMENTS_CELL,
                    self.random.pick(&[0, 1, 1023, 1024, 1025, now.wrapping_add(1), now.wrapping_sub(1)]),
                )
            }
            _ => (self.random.index(TABLES_LENGTH + 64), self.a_number()),
        }
    }

    /// One or a few cells of the tables, calls that show whether they are still sound, and a way out.
    pub fn damage_the_tables(&mut self) {
        self.open_some_records();
        for _ in 0..self.random.between(1, 6) {
            let mut before = Vec::new();
            for _ in 0..self.random.pick(&[1, 1, 1, 1, 2, 3]) {
                let (cell, value) = self.a_wrong_cell();
                before.push((cell, self.cell(BufferName::Tables, cell)));
                self.say(format!("poke tables {} {}", cell, value));
                let user = self.random.below(8);
                self.say(format!("free {}", user));
            }
            if self.random.chance(20) {
                self.say("tidy");
            }
            for _ in 0..self.random.below(3) {
                self.any_call();
            }
            self.leave_damage(before);
        }
    }

    fn leave_damage(&mut self, before: Vec<(usize, u32)>) {
        match self.random.weighted(&[80, 4, 6, 10]) {
            0 => {
                for (cell, value) in before.into_iter().rev() {
                    self.say(format!("poke tables {} {}", cell, value));
                }
                self.say("free 0");
            }
            1 => {
                self.say("fresh");
            }
            2 => {
                let image = self.random.below(4);
                self.say(format!("load {}", image));
            }
            _ => self.look(),
        }
    }

    /// Two list places of one opening or one record exchanged: sound in a file that shares none of them.
    pub fn exchange_segments(&mut self) {
        self.open_some_records();
        let list = match self.random.chance(70) {
            true => self.start_of_an_opening() + of_opening::LIST.start,
            false => fields::record_cells(self.a_used_place()).start + of_record::LIST.start,
        };
        let (one, other) = (list, list + self.random.between(1, 2) as usize);
        let (first, second) = (self.cell(BufferName::Tables, one), self.cell(BufferName::Tables, other));
        self.poke(BufferName::Tables, one, second);
        self.poke(BufferName::Tables, other, first);
        self.say("free 2");
        for _ in 0..self.random.below(4) {
            self.access_something();
        }
        if self.catalogue().is_none() || self.random.chance(30) {
            self.poke(BufferName::Tables, one, first);
            self.poke(BufferName::Tables, other, second);
            self.say("free 3");
        }
    }

    /// One field of a record in an image, or any bit of it.
    pub fn damage_an_image(&mut self) {
        let image = self.random.index(4);
        if self.random.chance(75) {
            self.say(format!("save {}", image));
        }
        let before = self.cells_before(SAVED_FORM, image);
        match self.random.weighted(&[65, 15, 20]) {
            0 => {
                let place = self.a_used_place();
                self.try_a_field(SAVED_FORM, image, place);
            }
            1 => {
                let cell = self.random.index(SAVED_LENGTH);
                self.flip_a_bit(image, cell);
            }
            _ => self.flip_a_bit(image, 0),
        }
        self.say(format!("sum image{}", image));
        self.say(format!("load {}", image));
        self.look();
        if self.random.chance(50) {
            self.put_back(image, &before);
            self.say(format!("load {}", image));
        }
    }
}
