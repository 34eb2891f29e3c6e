//! Numbers that the species does not take: refused with 23, "after 7 and before 10, through any pointer".

use super::teller::Teller;
use crate::model::opening::{BEGIN, END, WORK};

/// The species that take some of the plain numbers that a line can say and not others.
const NARROW_SPECIES: [u32; 5] = [0, 1, 2, 3, 4];

impl Teller {
    /// A file of narrow elements, and numbers that are too wide for it, one by one and in the middle of lists.
    pub fn meet_wide_numbers(&mut self) {
        let (user, entry) = self.a_closed_entry();
        let species = self.random.pick(&NARROW_SPECIES);
        let opened = self.say(format!("new {} {} {}", user, entry, species));
        if self.gives_up_after(&opened) {
            return;
        }
        let count = self.random.pick(&[0, 1, 3, 8, 20]);
        self.append_some(user, entry, count);
        for _ in 0..self.random.between(2, 5) {
            match self.random.weighted(&[40, 40, 10, 10]) {
                0 => self.write_too_wide(user, entry),
                1 => self.run_into_a_wide_number(user, entry),
                2 => self.cross_kinds(user, entry),
                _ => self.access_something(),
            }
        }
        self.look();
        let name = self.a_name();
        self.say_with_name("rename", user, entry, &name);
        self.end_work(user, entry);
    }

    /// Numbers that the file does not take, through pointers that it has or has not; and then perhaps one that it takes,
    /// which shows what else was to be refused.
    pub fn write_too_wide(&mut self, user: u32, entry: u32) {
        if self.random.chance(30) {
            self.write_too_wide_in_between(user, entry);
        }
        for _ in 0..self.random.between(1, 3) {
            let pointer = self.random.pick(&[BEGIN, END, END, END, WORK, WORK, 3, 8]);
            self.write_out_of_range(user, entry, pointer);
            if self.random.chance(40) {
                self.write(user, entry, pointer);
            }
        }
    }

    /// Through an own pointer that stands in the file, and again after the first elements have left it.
    fn write_too_wide_in_between(&mut self, user: u32, entry: u32) {
        self.say(format!("reset {} {}", user, entry));
        let made = self.say(format!("pointer {} {} {}", user, entry, WORK));
        if let Some(own) = made.strip_prefix("done ").and_then(|name| name.parse().ok()) {
            self.write_out_of_range(user, entry, own);
            self.next(user, entry, BEGIN);
            self.write_out_of_range(user, entry, own);
            self.say(format!("delete {} {} {}", user, entry, own));
        }
    }

    pub fn write_out_of_range(&mut self, user: u32, entry: u32, pointer: u32) {
        let species = match self.species_at(user, entry) {
            Some(species) => species,
            None => return,
        };
        if let Some(number) = self.a_number_out_of_range(species) {
            self.write_number(species.kind(), user, entry, pointer, number);
        }
    }

    /// "It stops at the first element that the single call would refuse": elements appended, replaced or dropped up to the
    /// number that is too wide.
    fn run_into_a_wide_number(&mut self, user: u32, entry: u32) {
        let length = self.random.between(1, 12);
        let list = self.a_list_to_write(user, entry, length);
        if let (Some(species), true) = (self.species_at(user, entry), self.random.chance(80)) {
            // A calm history pokes nothing; its lists hold what wider files held.
            match self.is_calm() {
                true => self.lend_list(list, length),
                false => self.spoil(list, species),
            }
        }
        let pointer = self.random.pick(&[BEGIN, END, END, WORK]);
        if pointer == WORK {
            self.say(format!("reset {} {}", user, entry));
        }
        self.write_run(user, entry, pointer, list);
        self.say(format!("end {} {}", user, entry));
    }
}
