//! "degrees below zero": files of species 6 and their own calls, and calls of the kind that a species refuses.

use super::arguments::text_of;
use super::elements::word;
use super::teller::Teller;
use crate::model::opening::{END, WORK};
use crate::rules::element::{Element, Kind};

/// The one species of signed numbers.
const TEMPERATURES: u32 = 6;

/// "from -32,768 to 32,767", just beyond, what 16 bits would make of other numbers, and the last that a line can say.
const DEGREES: [Element; 15] = [
    -32_768,
    -32_768,
    32_767,
    32_767,
    -1,
    0,
    1,
    -32_769,
    32_768,
    65_535,
    65_536,
    -65_536,
    -65_537,
    -2_147_483_648,
    2_147_483_647,
];

impl Teller {
    pub fn keep_temperatures(&mut self) {
        let (user, entry) = self.a_closed_entry();
        let opened = self.say(format!("new {} {} {}", user, entry, TEMPERATURES));
        if self.gives_up_after(&opened) {
            return;
        }
        if !self.is_calm() && self.random.chance(40) {
            self.begin_near_a_boundary(user, entry, TEMPERATURES);
        }
        for _ in 0..self.random.between(2, 10) {
            self.write_degrees(user, entry, END);
        }
        self.use_a_signed_file(user, entry);
        let name = self.a_name();
        self.say_with_name("rename", user, entry, &name);
        self.end_work(user, entry);
        if self.random.chance(60) {
            self.save_and_read_temperatures();
        }
    }

    fn write_degrees(&mut self, user: u32, entry: u32, pointer: u32) {
        let number = self.random.pick(&DEGREES);
        self.write_number(Kind::Signed, user, entry, pointer, number);
    }

    pub fn use_a_signed_file(&mut self, user: u32, entry: u32) {
        for _ in 0..self.random.between(2, 7) {
            match self.random.weighted(&[20, 30, 15, 10, 10, 15]) {
                0 => {
                    let pointer = self.a_pointer();
                    self.write_degrees(user, entry, pointer);
                }
                1 => self.go_there_and_back(user, entry),
                2 => self.cross_kinds(user, entry),
                3 => self.write_too_wide(user, entry),
                4 => self.append_some(user, entry, 3),
                _ => {
                    let pointer = self.a_pointer();
                    self.access_through(user, entry, pointer);
                }
            }
        }
    }

    /// From the begin on and back again, replacing some on the way.
    fn go_there_and_back(&mut self, user: u32, entry: u32) {
        self.say(format!("reset {} {}", user, entry));
        for _ in 0..self.random.between(1, 6) {
            match self.random.chance(30) {
                true => self.write_degrees(user, entry, WORK),
                false => {
                    self.next(user, entry, WORK);
                }
            }
        }
        for _ in 0..self.random.between(1, 6) {
            self.prev(user, entry, WORK);
        }
    }

    /// "those refuse species 0 to 5 with 19, and the plain ones refuse species 6 with 19, after 2 and before 4", so through
    /// any pointer and with any number; "so do P1's runs, at length 0 too."
    pub fn cross_kinds(&mut self, user: u32, entry: u32) {
        let signed = self.is_signed(user, entry);
        let wrong_kind = if signed { Kind::Plain } else { Kind::Signed };
        for _ in 0..self.random.between(2, 5) {
            let pointer = self.random.pick(&[0, 1, 2, 3, 8, u32::MAX]);
            if self.random.chance(50) {
                let number = self.a_number_for(wrong_kind, self.species_at(user, entry));
                self.write_number(wrong_kind, user, entry, pointer, number);
            } else {
                let plain_word = self.random.pick(&["next", "prev"]);
                self.say(format!("{} {} {} {}", word(plain_word, wrong_kind), user, entry, pointer));
            }
        }
        for _ in 0..if signed { 2 } else { 0 } {
            self.try_runs(user, entry);
        }
    }

    fn try_runs(&mut self, user: u32, entry: u32) {
        let pointer = self.random.pick(&[0, 1, 2, 3, 8]);
        let length = self.random.pick(&[0, 0, 1, 5]);
        let list = self.a_list();
        self.lend_list(list, length);
        self.write_run(user, entry, pointer, list);
        self.fill_run(user, entry, pointer, list);
    }

    /// "Images may hold species 6."
    fn save_and_read_temperatures(&mut self) {
        let image = self.random.below(4);
        self.say(format!("save {}", image));
        self.say(format!("sum image{}", image));
        if self.random.chance(50) {
            self.say("fresh");
        }
        self.say(format!("load {}", image));
        let record = match self.a_signed_record() {
            Some((_, record)) => record,
            None => return,
        };
        let user = record.owner as u32;
        let entry = self.closed_entry_of(user);
        let word = self.random.pick(&["read", "work"]);
        let opened = self.say_with_name(word, user, entry, &text_of(&record.name));
        if self.gives_up_after(&opened) {
            return;
        }
        self.say(format!("species {} {}", user, entry));
        self.use_a_signed_file(user, entry);
        self.go_there_and_back(user, entry);
        self.end_work(user, entry);
    }
}
