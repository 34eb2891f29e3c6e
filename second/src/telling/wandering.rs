//! Single calls of every kind, one after another.

use super::mode::Mode;
use super::teller::Teller;

impl Teller {
    pub fn wander(&mut self) {
        for _ in 0..self.random.between(5, 40) {
            self.any_call();
        }
    }

    pub fn any_call(&mut self) {
        // Where nothing is open, most calls would only be refused for that.
        let nothing_open = self.catalogue().map_or(false, |catalogue| catalogue.openings().count() == 0);
        if nothing_open && self.random.chance(60) {
            return self.open_something();
        }
        match self.random.weighted(&[10, 8, 3, 6, 45, 7, 12, 3, 2, 2]) {
            0 => self.open_something(),
            1 => self.end_something(),
            2 => {
                let (user, entry) = self.an_entry_with_permit();
                let name = self.a_name();
                self.say_with_name("rename", user, entry, &name);
            }
            3 => self.handle_a_pointer(),
            4 => self.access_something(),
            5 => {
                let user = self.a_user();
                self.say(format!("free {}", user));
            }
            6 => self.inquire_something(),
            7 => self.look(),
            8 => self.name_nobody(),
            _ => {
                self.say("tidy");
            }
        }
    }

    /// A user or an entry that there is not.
    fn name_nobody(&mut self) {
        if self.mode == Mode::Calm {
            return;
        }
        let (user, entry) = self.random.pick(&[(8, 0), (8, 4), (0, 4), (u32::MAX, 0), (7, u32::MAX)]);
        let words =
            ["close", "public", "abandon", "reset", "species", "claim", "permit", "begin", "end", "work", "rename"];
        let word = self.random.pick(&words);
        self.say(format!("{} {} {}", word, user, entry));
        if self.random.chance(80) {
            let pointer = self.a_pointer();
            self.run_through(user, entry, pointer);
        }
    }

    pub fn open_something(&mut self) {
        let (user, entry) = match self.random.chance(90) {
            true => self.a_closed_entry(),
            false => self.an_open_entry(),
        };
        let word = self.random.pick(&["new", "new", "work", "work", "read", "read"]);
        if word == "new" {
            let species = self.a_species();
            self.say(format!("new {} {} {}", user, entry, species));
        } else {
            let name = self.a_name();
            self.open_old(word, user, entry, &name);
        }
    }

    pub fn end_something(&mut self) {
        let (user, entry) = self.an_open_entry();
        let word = self.random.pick(&["close", "close", "public", "public", "abandon"]);
        self.say(format!("{} {} {}", word, user, entry));
    }

    pub fn handle_a_pointer(&mut self) {
        let (user, entry) = self.an_open_entry();
        let pointer = self.a_pointer();
        match self.random.below(7) {
            0 => self.say(format!("reset {} {}", user, entry)),
            1 => self.say(format!("delete {} {} {}", user, entry, pointer)),
            2 => self.say(format!("delete {} {} {}", user, entry, 3 + pointer % 5)),
            _ => self.say(format!("pointer {} {} {}", user, entry, pointer)),
        };
    }

    pub fn access_something(&mut self) {
        let (user, entry) = match self.random.chance(70) {
            true => self.an_entry_with_permit(),
            false => self.an_open_entry(),
        };
        let pointer = self.a_pointer();
        self.access_through(user, entry, pointer);
    }

    /// One write, next or prev, or a run of them.
    pub fn access_through(&mut self, user: u32, entry: u32, pointer: u32) {
        match self.random.weighted(&[20, 4]) {
            0 => {
                self.access_once(user, entry, pointer);
            }
            _ => self.run_through(user, entry, pointer),
        }
    }

    pub fn inquire_something(&mut self) {
        let (user, entry) = self.an_open_entry();
        match self.random.below(7) {
            0 => {
                let k: u32 = self.random.pick(&[0, 1, 2, 5, 11, 12, 13, 4_294_967_295]);
                self.say(format!("symbol {} {} {}", user, entry, k))
            }
            1 => {
                let pointer = self.a_pointer();
                self.say(format!("value {} {} {}", user, entry, pointer))
            }
            other => {
                let word = ["species", "claim", "permit", "begin", "end"][other as usize - 2];
                self.say(format!("{} {} {}", word, user, entry))
            }
        };
    }

    /// Everything that can be asked of one entry.
    pub fn inquire_all(&mut self, user: u32, entry: u32) {
        for word in ["species", "claim", "permit", "begin", "end"] {
            self.say(format!("{} {} {}", word, user, entry));
        }
        for pointer in 0..9 {
            self.say(format!("value {} {} {}", user, entry, pointer));
        }
    }
}
