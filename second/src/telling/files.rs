//! The lives of files: built, closed, worked on again, read.

use super::arguments::text_of;
use super::mode::Mode;
use super::positions::first_position;
use super::teller::Teller;
use crate::model::opening::{BEGIN, END, WORK};
use crate::rules::species::Species;

impl Teller {
    /// A new file, some elements, a name, and an end.
    pub fn build(&mut self) {
        let (user, entry) = self.a_closed_entry();
        let species = self.a_species();
        let opened = self.say(format!("new {} {} {}", user, entry, species));
        if self.gives_up_after(&opened) {
            return;
        }
        if self.mode != Mode::Calm && self.random.chance(50) {
            self.begin_near_a_boundary(user, entry, species);
        }
        let count = self.random.pick(&[0, 1, 2, 3, 5, 10, 20, 70, 140]);
        self.append_some(user, entry, count);
        if self.random.chance(80) {
            let name = self.a_name();
            self.say_with_name("rename", user, entry, &name);
        }
        self.end_work(user, entry);
    }

    /// One by one, or now and then several by one run.
    pub fn append_some(&mut self, user: u32, entry: u32, count: u32) {
        if count > 1 && self.random.chance(25) {
            return self.append_a_run(user, entry, count);
        }
        self.append_one_by_one(user, entry, count);
    }

    /// Moves an empty new file to just before the end of some stretch, so that narrow species cross it soon.
    pub fn begin_near_a_boundary(&mut self, user: u32, entry: u32, species: u32) {
        let species = match Species::from_number(species) {
            Some(species) => species,
            None => return,
        };
        let stretch = match self.random.chance(75) {
            true => self.random.pick(&[1, 2, 3, 31, 32, 33, 100]),
            false => self.a_far_stretch(species),
        };
        let position = first_position(species, stretch) - self.random.below(6);
        self.move_empty_file(user, entry, position);
    }

    /// Closing, mostly; now and then the entry stays open.
    pub fn end_work(&mut self, user: u32, entry: u32) {
        match self.random.weighted(&[40, 25, 12, 23]) {
            0 => self.say(format!("close {} {}", user, entry)),
            1 => self.say(format!("public {} {}", user, entry)),
            2 => self.say(format!("abandon {} {}", user, entry)),
            _ => self.say(format!("claim {} {}", user, entry)),
        };
    }

    /// An old file opened for work: its segments are shared until they are changed.
    pub fn share(&mut self) {
        let record = match self.a_record() {
            Some((_, record)) => record,
            None => return self.build(),
        };
        let user = record.owner as u32;
        let entry = self.closed_entry_of(user);
        let opened = self.open_old("work", user, entry, &text_of(&record.name));
        if self.gives_up_after(&opened) {
            return;
        }
        for _ in 0..self.random.between(1, 40) {
            self.change_something(user, entry);
        }
        self.look();
        if self.random.chance(20) {
            let name = self.a_name();
            self.say_with_name("rename", user, entry, &name);
        }
        self.end_work(user, entry);
    }

    fn change_something(&mut self, user: u32, entry: u32) {
        match self.random.weighted(&[20, 14, 10, 6, 12, 6, 3, 3, 6, 4]) {
            0 => {
                self.write(user, entry, WORK);
            }
            1 => self.append_some(user, entry, 1),
            2 => {
                self.prev(user, entry, END);
            }
            3 => {
                self.next(user, entry, BEGIN);
            }
            4 => {
                let pointer = self.a_pointer();
                self.access_through(user, entry, pointer);
            }
            5 => {
                self.next(user, entry, WORK);
            }
            6 => {
                self.say(format!("pointer {} {} {}", user, entry, 1));
            }
            7 => {
                self.say(format!("reset {} {}", user, entry));
            }
            8 => {
                let pointer = self.random.pick(&[BEGIN, END, WORK, WORK, WORK]);
                match pointer {
                    WORK => self.run_from_the_begin(user, entry),
                    _ => self.run_through(user, entry, pointer),
                }
            }
            // So many that whole segments may be emptied.
            _ => {
                let (word, pointer) = self.random.pick(&[("prev", END), ("next", BEGIN)]);
                for _ in 0..self.random.between(2, 80) {
                    if self.step(word, user, entry, pointer).starts_with("refused") {
                        break;
                    }
                }
            }
        }
    }

    /// Reads a file, mostly from its begin on, and back, by its owner or another.
    pub fn read_back(&mut self) {
        let record = match self.a_record() {
            Some((_, record)) => record,
            None => return self.build(),
        };
        let user = match self.random.chance(50) {
            true => record.owner as u32,
            false => self.a_user(),
        };
        let entry = self.closed_entry_of(user);
        let word = self.random.pick(&["read", "read", "read", "work"]);
        let opened = self.open_old(word, user, entry, &text_of(&record.name));
        if self.gives_up_after(&opened) {
            return;
        }
        self.inquire_all(user, entry);
        for pointer in [2, 3] {
            for word in ["next", "prev"] {
                for _ in 0..self.random.below(25) {
                    self.step(word, user, entry, pointer);
                }
            }
            self.say(format!("pointer {} {} 1", user, entry));
        }
        if self.random.chance(60) {
            self.run_from_the_begin(user, entry);
        }
        if self.random.chance(30) {
            let pointer = self.a_pointer();
            self.access_through(user, entry, pointer);
        }
        let end = self.random.pick(&["close", "close", "abandon", "public", "end"]);
        self.say(format!("{} {} {}", end, user, entry));
    }
}
