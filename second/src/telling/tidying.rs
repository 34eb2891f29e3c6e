//! Tidying: scattered catalogues put together, and what files, free segments and images are like afterwards.

use super::arguments::text_of;
use super::mode::Mode;
use super::teller::Teller;
use crate::model::opening::{END, WORK};
use crate::text::answering::LIST_CELLS;
use crate::text::line::IMAGES;

/// Stores in which segments can lie apart.
const ROOMY_STORES: [u32; 6] = [320, 640, 700, 2048, 4096, 65_536];
const SMALL_ROOMY_STORES: [u32; 3] = [320, 640, 1280];

/// In fewer segments there is little to move.
const FEW_SEGMENTS: usize = 3;

/// So many openings are mostly ended all at once.
const MANY_OPENINGS: usize = 5;

/// More elements than this are not read one by one.
const MOST_READ_ONE_BY_ONE: u32 = 20;

impl Teller {
    /// A catalogue that is scattered or just as it is, and then mostly nothing open.
    pub fn scatter_and_tidy(&mut self) {
        if self.catalogue().is_none() {
            self.say("tidy");
            return;
        }
        self.make_room();
        if self.random.chance(70) {
            self.end_all_openings();
        }
        let scatter = if self.is_scattered() { 30 } else { 90 };
        if self.random.chance(scatter) {
            self.scatter_by_calls();
        }
        if self.random.chance(90) {
            self.end_all_openings();
        }
        // A calm history pokes nothing.
        if self.mode != Mode::Calm && self.random.chance(40) {
            self.scatter_by_hand();
        }
        if self.random.chance(30) {
            self.tidy_with_something_open();
        }
        match self.random.chance(30) {
            true => self.tidy_and_go_back(),
            false => self.tidy_and_look(),
        }
    }

    /// A store of few segments is mostly exchanged for a larger one.
    fn make_room(&mut self) {
        let few = self.catalogue().map_or(false, |catalogue| catalogue.segments < FEW_SEGMENTS);
        if few && self.random.chance(70) {
            let length = match self.mode {
                Mode::Small => self.random.pick(&SMALL_ROOMY_STORES),
                _ => self.random.pick(&ROOMY_STORES),
            };
            self.say(format!("lend store {}", length));
            self.say("fresh");
        }
    }

    fn scatter_by_hand(&mut self) {
        match self.random.chance(75) {
            true => self.scatter_by_pokes(),
            false => {
                let held = self.random.pick(&[1, 2, 3, 5, 32]);
                self.forge_a_record(held);
            }
        }
    }

    fn an_image(&mut self) -> usize {
        self.random.index(IMAGES)
    }

    /// Each opening by itself, or all of them by a load of what was just saved: "Saving writes the records only, whatever
    /// is open."
    fn end_all_openings(&mut self) {
        let open = self.open_entries();
        let all_at_once = if open.len() >= MANY_OPENINGS { 80 } else { 10 };
        if !open.is_empty() && self.random.chance(all_at_once) {
            let image = self.an_image();
            self.say(format!("save {}", image));
            self.say(format!("load {}", image));
            return;
        }
        for (user, entry) in open {
            let word = self.random.pick(&["close", "public", "abandon"]);
            self.end_surely(word, user, entry);
        }
    }

    /// "With nothing open (else refusal 14)": an opening that only reads counts, and so does a new file without elements.
    fn tidy_with_something_open(&mut self) {
        let (user, entry) = match self.a_record() {
            Some((_, record)) if self.random.chance(70) => {
                let user = record.owner as u32;
                let entry = self.closed_entry_of(user);
                let word = self.random.pick(&["read", "read", "work"]);
                self.say_with_name(word, user, entry, &text_of(&record.name));
                (user, entry)
            }
            _ => {
                let (user, entry) = self.a_closed_entry();
                let species = self.a_species();
                self.say(format!("new {} {} {}", user, entry, species));
                (user, entry)
            }
        };
        self.say("tidy");
        self.say("sum tables");
        let word = self.random.pick(&["close", "abandon"]);
        self.say(format!("{} {} {}", word, user, entry));
    }

    fn tidy_and_look(&mut self) {
        self.say("tidy");
        self.say("sum tables");
        self.say("sum store");
        let user = self.a_user();
        self.say(format!("free {}", user));
        for _ in 0..self.random.between(1, 3) {
            self.read_through();
        }
        if self.random.chance(50) {
            let image = self.an_image();
            self.say(format!("save {}", image));
            self.say(format!("sum image{}", image));
            self.say(format!("load {}", image));
            self.read_through();
        }
        match self.random.weighted(&[30, 30, 40]) {
            0 => {
                self.say("tidy");
            }
            1 => self.build(),
            _ => {}
        }
    }

    /// "Segments left behind keep their cells": an image saved before has the same files, and the same moves tidy it.
    fn tidy_and_go_back(&mut self) {
        let image = self.an_image();
        self.say(format!("save {}", image));
        self.say("tidy");
        self.say("sum store");
        self.read_through();
        self.say(format!("load {}", image));
        self.say("sum tables");
        self.read_through();
        self.tidy_and_look();
    }

    /// One of the files from its begin on, as far as a list goes, and some of it from its end back.
    fn read_through(&mut self) {
        let record = match self.a_record_with_segments() {
            Some((_, record)) => record,
            None => return,
        };
        let user = record.owner as u32;
        let entry = self.closed_entry_of(user);
        let opened = self.say_with_name("read", user, entry, &text_of(&record.name));
        if self.gives_up_after(&opened) {
            return;
        }
        let elements = record.file.end() - record.file.begin();
        self.read_elements(user, entry, elements);
        let made = self.say(format!("pointer {} {} {}", user, entry, END));
        if let Some(own) = made.strip_prefix("done ").and_then(|name| name.parse().ok()) {
            for _ in 0..self.random.between(1, 3) {
                self.prev(user, entry, own);
            }
        }
        self.say(format!("close {} {}", user, entry));
    }

    /// By a run, as far as a list goes; of a signed file some of them, one by one.
    fn read_elements(&mut self, user: u32, entry: u32, count: u32) {
        if self.is_signed(user, entry) {
            for _ in 0..count.min(MOST_READ_ONE_BY_ONE) {
                self.next(user, entry, WORK);
            }
            return;
        }
        let list = self.a_list_to_fill(user, entry, count.min(LIST_CELLS as u32));
        self.say(format!("nexts {} {} {} {}", user, entry, WORK, list));
        self.say(format!("sum list{}", list));
    }
}
