//! Too much of something: records, own pointers, segments.

use super::arguments::text_of;
use super::teller::Teller;
use crate::model::record::Record;

impl Teller {
    /// Records until no place is free, a few tries more, and some of them removed again.
    pub fn fill_the_catalogue(&mut self) {
        let salt = self.random.below(1000);
        for number in 0..90 {
            let free_places = self.free_places();
            if free_places == 0 && self.random.chance(15) {
                break;
            }
            let (user, entry) = self.a_closed_entry();
            let species = self.a_known_species();
            self.say(format!("new {} {} {}", user, entry, species));
            if self.random.chance(10) {
                self.append_some(user, entry, 1);
            }
            if free_places == 0 && self.random.chance(40) {
                // With no free place the name's clash is still answered first.
                let name = self.a_name();
                self.say_with_name("rename", user, entry, &name);
            } else {
                self.say(format!("rename {} {} r{}x{}", user, entry, salt, number));
            }
            let word = self.random.pick(&["close", "public"]);
            if self.say(format!("{} {} {}", word, user, entry)) == "refused 17" && self.random.chance(60) {
                self.say(format!("abandon {} {}", user, entry));
            }
        }
        self.look();
        for _ in 0..self.random.between(0, 30) {
            self.remove_a_record();
        }
    }

    fn free_places(&self) -> usize {
        let catalogue = self.catalogue();
        catalogue.map_or(0, |catalogue| catalogue.records.iter().filter(|record| record.is_none()).count())
    }

    fn remove_a_record(&mut self) {
        if let Some((_, record)) = self.a_record() {
            self.remove(&record);
        }
    }

    /// "Old work renamed to scratch: its record and all segments are freed."
    pub fn remove(&mut self, record: &Record) {
        let user = record.owner as u32;
        let entry = self.closed_entry_of(user);
        self.open_old("work", user, entry, &text_of(&record.name));
        for _ in 0..self.random.below(3) {
            let pointer = self.a_pointer();
            self.access_through(user, entry, pointer);
        }
        self.say_with_name("rename", user, entry, b"");
        if self.random.chance(15) {
            self.say(format!("public {} {}", user, entry));
        }
        self.say(format!("close {} {}", user, entry));
    }

    /// All own pointers, one too many, and what the file's shrinking leaves of them.
    pub fn use_many_pointers(&mut self) {
        self.open_something();
        let (user, entry) = match self.random.chance(70) {
            true => self.an_entry_with_permit(),
            false => self.an_open_entry(),
        };
        for _ in 0..self.random.between(4, 11) {
            let given = self.random.pick(&[0, 1, 1, 2, 2, 3, 4, 5, 7, 8]);
            self.say(format!("pointer {} {} {}", user, entry, given));
        }
        for _ in 0..self.random.between(5, 25) {
            let pointer = self.random.pick(&[0, 1, 2, 3, 4, 5, 6, 7]);
            self.access_through(user, entry, pointer);
        }
        for _ in 0..self.random.below(5) {
            let pointer = self.random.below(9);
            self.say(format!("delete {} {} {}", user, entry, pointer));
        }
        self.inquire_all(user, entry);
    }

    /// Files that grow until no segment is free, then some that let go.
    pub fn fill_the_store(&mut self) {
        let segments = self.random.pick(&[1, 1, 2, 3, 5, 10, 11]);
        let cells_more = self.random.pick(&[0, 0, 1, 63]);
        self.say(format!("lend store {}", segments * 64 + cells_more));
        self.say("fresh");
        for _ in 0..self.random.between(3, 9) {
            self.build();
        }
        for _ in 0..self.random.between(1, 4) {
            self.share();
        }
        self.say("free 0");
        let ending = self.random.pick(&["abandon", "close", "public"]);
        let (user, entry) = self.an_open_entry();
        self.say(format!("{} {} {}", ending, user, entry));
        for _ in 0..self.random.between(1, 4) {
            let (user, entry) = self.an_entry_with_permit();
            self.append_some(user, entry, 70);
            self.write_too_wide(user, entry);
            self.say("free 1");
        }
    }
}
