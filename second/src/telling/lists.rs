//! Lists lent in all lengths and varied, and single runs with them.

use super::teller::Teller;
use crate::model::opening::{END, WORK};
use crate::rules::element::Kind;
use crate::text::answering::{LIST_CELLS, LIST_LENT_AT_FIRST};
use crate::text::line::{BufferName, LISTS};

/// More elements than this are not appended one by one where a run is refused.
const MOST_ONE_BY_ONE: u32 = 70;

impl Teller {
    pub fn a_list(&mut self) -> usize {
        self.random.index(LISTS)
    }

    /// None, one, a few, forty, about as many as a segment of whole cells has, or hundreds.
    pub fn a_list_length(&mut self) -> u32 {
        match self.random.weighted(&[12, 14, 40, 18, 8, 6, 2]) {
            0 => 0,
            1 => 1,
            2 => self.random.between(2, 9),
            3 => LIST_LENT_AT_FIRST as u32,
            4 => self.random.between(62, 66),
            5 => self.random.between(100, LIST_CELLS as u32),
            _ => LIST_CELLS as u32,
        }
    }

    pub fn lend_list(&mut self, list: usize, length: u32) {
        if self.lent(BufferName::List(list)) != length as usize {
            self.say(format!("lend list{} {}", list, length));
        }
    }

    /// A list with so many cells lent, to be filled: one for narrow species, one for wide ones, so that what was filled
    /// can mostly be written to files like the one that it came from.
    pub fn a_list_to_fill(&mut self, user: u32, entry: u32, length: u32) -> usize {
        let narrow = self.species_at(user, entry).map_or(false, |species| species.width() <= 8);
        let list = match self.random.chance(75) {
            true => usize::from(narrow),
            false => self.a_list(),
        };
        self.lend_list(list, length);
        list
    }

    /// A list with so many cells lent or, where they don't fit the entry's species, often fewer, to be written.
    pub fn a_list_to_write(&mut self, user: u32, entry: u32, length: u32) -> usize {
        let species = self.species_at(user, entry);
        let list = match species {
            Some(species) if self.random.chance(70) => self.the_list_that_fits(species, length as usize),
            _ => self.a_list(),
        };
        self.lend_list(list, length);
        if self.random.chance(35) {
            self.vary(list, user, entry);
        }
        if let Some(species) = species {
            self.make_fit(list, species);
        }
        list
    }

    /// Other numbers in a few of the lent cells, mostly in the first ones, which every run reaches; seldom in forty.
    fn vary(&mut self, list: usize, user: u32, entry: u32) {
        let lent = self.lent(BufferName::List(list));
        // A calm history pokes nothing: its lists are filled from files alone.
        if self.is_calm() || lent == 0 {
            return;
        }
        let cells: Vec<usize> = if self.random.chance(4) {
            (0..lent.min(LIST_LENT_AT_FIRST)).collect()
        } else {
            let limit = self.random.pick(&[lent, lent.min(8)]);
            (0..self.random.between(1, 4)).map(|_| self.random.index(limit)).collect()
        };
        for cell in cells {
            let value = self.a_number_for(Kind::Plain, self.species_at(user, entry));
            self.poke(BufferName::List(list), cell, value as u32);
        }
    }

    pub fn write_run(&mut self, user: u32, entry: u32, pointer: u32, list: usize) -> String {
        self.say(format!("writes {} {} {} {}", user, entry, pointer, list))
    }

    /// What was filled shows in the list alone.
    pub fn fill_run(&mut self, user: u32, entry: u32, pointer: u32, list: usize) -> String {
        let answer = self.say(format!("nexts {} {} {} {}", user, entry, pointer, list));
        if self.random.chance(40) {
            self.say(format!("sum list{}", list));
        }
        answer
    }

    /// "so do P1's runs": for a signed file there is none, so mostly its own calls are made one by one.
    fn does_without_runs(&mut self, user: u32, entry: u32) -> bool {
        self.is_signed(user, entry) && self.random.chance(80)
    }

    /// One run through a pointer, of a list lent anew or as it is.
    pub fn run_through(&mut self, user: u32, entry: u32, pointer: u32) {
        if self.does_without_runs(user, entry) {
            for _ in 0..self.random.between(1, 8) {
                self.access_once(user, entry, pointer);
            }
            return;
        }
        let length = match self.random.chance(50) {
            true => self.a_list_length(),
            false => LIST_LENT_AT_FIRST as u32,
        };
        // Next through the end is always refused.
        let writes = if pointer == END { 90 } else { 45 };
        if self.random.chance(writes) {
            let list = self.a_list_to_write(user, entry, length);
            self.write_run(user, entry, pointer, list);
        } else {
            let list = self.a_list_to_fill(user, entry, length);
            self.fill_run(user, entry, pointer, list);
        }
    }

    /// A run through the work pointer, mostly from the begin on.
    pub fn run_from_the_begin(&mut self, user: u32, entry: u32) {
        if self.random.chance(75) {
            self.say(format!("reset {} {}", user, entry));
        }
        self.run_through(user, entry, WORK);
    }

    /// So many elements appended by one run.
    pub fn append_a_run(&mut self, user: u32, entry: u32, count: u32) {
        if self.does_without_runs(user, entry) {
            return self.append_one_by_one(user, entry, count.min(MOST_ONE_BY_ONE));
        }
        let list = self.a_list_to_write(user, entry, count);
        self.write_run(user, entry, END, list);
    }

    /// Until there is no room.
    pub fn append_one_by_one(&mut self, user: u32, entry: u32, count: u32) {
        for _ in 0..count {
            if self.write(user, entry, END) == "refused 9" {
                break;
            }
        }
    }
}
