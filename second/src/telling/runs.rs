//! Stories of runs: elements copied, dropped and replaced by lists, and runs stopped in every way.

use super::arguments::text_of;
use super::mode::Mode;
use super::teller::Teller;
use crate::model::opening::{END, WORK};
use crate::text::answering::LIST_LENT_AT_FIRST;

impl Teller {
    /// One file and several runs through it.
    pub fn use_runs(&mut self) {
        let (user, entry) = self.a_file_for_runs();
        if !self.is_open(user, entry) && self.random.chance(80) {
            return;
        }
        // Species 6 has no runs: mostly its own calls are made.
        if self.is_signed(user, entry) && self.random.chance(80) {
            self.use_a_signed_file(user, entry);
            return self.end_work(user, entry);
        }
        for _ in 0..self.random.between(2, 6) {
            match self.random.weighted(&[20, 12, 24, 8, 16, 10]) {
                0 => self.copy_by_runs(user, entry),
                1 => self.drop_by_runs(user, entry),
                2 => self.replace_by_runs(user, entry),
                3 => self.run_with_and_without_elements(),
                4 => self.run_from_the_begin(user, entry),
                _ => {
                    let pointer = self.a_pointer();
                    self.run_through(user, entry, pointer);
                }
            }
        }
        if self.random.chance(50) {
            let name = self.a_name();
            self.say_with_name("rename", user, entry, &name);
        }
        self.end_work(user, entry);
    }

    /// A new file with some elements, an old one, or one that is open.
    fn a_file_for_runs(&mut self) -> (u32, u32) {
        match self.random.weighted(&[45, 40, 15]) {
            0 => self.a_new_file_for_runs(),
            1 => match self.a_record() {
                Some((_, record)) => {
                    let user = record.owner as u32;
                    let entry = self.closed_entry_of(user);
                    let word = self.random.pick(&["work", "work", "work", "read"]);
                    self.open_old(word, user, entry, &text_of(&record.name));
                    (user, entry)
                }
                None => self.a_new_file_for_runs(),
            },
            _ => self.an_open_entry(),
        }
    }

    fn a_new_file_for_runs(&mut self) -> (u32, u32) {
        let (user, entry) = self.a_closed_entry();
        let species = self.a_species();
        self.say(format!("new {} {} {}", user, entry, species));
        if self.mode != Mode::Calm && self.random.chance(40) {
            self.begin_near_a_boundary(user, entry, species);
        }
        for _ in 0..self.random.between(1, 2) {
            let length = self.a_list_length();
            self.append_a_run(user, entry, length);
        }
        (user, entry)
    }

    /// A list filled from this file and appended to another, or to the same.
    fn copy_by_runs(&mut self, user: u32, entry: u32) {
        if self.random.chance(75) {
            self.say(format!("reset {} {}", user, entry));
        }
        let length = self.a_list_length();
        let list = self.a_list_to_fill(user, entry, length);
        self.fill_run(user, entry, WORK, list);
        let species = self.species_at(user, entry);
        let (to_user, to_entry) = match self.random.chance(70) {
            true => self.an_entry_with_permit_where(|file| Some(file.species()) == species),
            false => self.an_entry_with_permit(),
        };
        self.write_run(to_user, to_entry, END, list);
        self.say(format!("end {} {}", to_user, to_entry));
    }

    /// Elements leave the file at its begin; the work pointer, which stays, may then stand below it.
    fn drop_by_runs(&mut self, user: u32, entry: u32) {
        let length = self.random.pick(&[1, 2, 3, 5, LIST_LENT_AT_FIRST as u32, 64]);
        self.drop_from_the_begin(user, entry, length);
        for _ in 0..self.random.between(1, 3) {
            self.run_through(user, entry, WORK);
        }
        self.say(format!("begin {} {}", user, entry));
    }

    /// Elements replaced from some position on, often past the end, and read again through an own pointer.
    fn replace_by_runs(&mut self, user: u32, entry: u32) {
        self.say(format!("reset {} {}", user, entry));
        for _ in 0..self.random.below(3) {
            self.next(user, entry, WORK);
        }
        let made = self.say(format!("pointer {} {} {}", user, entry, WORK));
        let length = self.a_list_length();
        let list = self.a_list_to_write(user, entry, length);
        self.write_run(user, entry, WORK, list);
        if let Some(own) = made.strip_prefix("done ").and_then(|name| name.parse().ok()) {
            let other_list = self.a_list();
            self.fill_run(user, entry, own, other_list);
            self.say(format!("delete {} {} {}", user, entry, own));
        }
    }

    /// The same runs of no element and of one: refusals 20, 1, 2, 19, 4 and 5 come with both, others with one alone.
    pub fn run_with_and_without_elements(&mut self) {
        let (user, entry) = match self.slip(35) {
            false => self.an_open_entry(),
            true => self.random.pick(&[(8, 0), (8, 4), (7, 4), (u32::MAX, u32::MAX), (u32::MAX, 0)]),
        };
        let pointer = self.random.pick(&[0, 0, 1, 2, 3, 7, 8, u32::MAX]);
        for length in [0, 1] {
            let list = self.a_list();
            self.lend_list(list, length);
            self.write_run(user, entry, pointer, list);
            self.fill_run(user, entry, pointer, list);
        }
    }
}
