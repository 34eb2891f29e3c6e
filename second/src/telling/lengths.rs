//! Buffers lent too short, too long, or just so.

use super::teller::Teller;
use crate::cells::fields::TABLES_LENGTH;
use crate::cells::form::FORM_1;
use crate::cells::image::SAVED_LENGTH;

impl Teller {
    pub fn lend_wrong_lengths(&mut self) {
        match self.random.below(3) {
            0 => self.lend_the_tables_wrong(),
            1 => self.lend_an_image_wrong(),
            _ => self.lend_the_store_otherwise(),
        }
    }

    fn lend_the_tables_wrong(&mut self) {
        let one = TABLES_LENGTH as u32;
        let length = self.random.pick(&[one - 1, one + 1, one + 64, 0, 64]);
        self.say(format!("lend tables {}", length));
        self.say("tidy");
        self.some_calls();
        if self.random.chance(50) {
            self.run_with_and_without_elements();
        }
        if self.random.chance(50) {
            self.say("fresh");
        }
        let image = self.random.below(4);
        let word = self.random.pick(&["save", "load"]);
        self.say(format!("{} {}", word, image));
        self.say("sum tables");
        self.say(format!("lend tables {}", one));
        self.some_calls();
    }

    fn lend_an_image_wrong(&mut self) {
        let one = SAVED_LENGTH as u32;
        let image = self.random.below(4);
        let length = self.random.pick(&[one - 1, one + 1, 0, 1_024, FORM_1.length() as u32]);
        self.say(format!("lend image{} {}", image, length));
        for _ in 0..self.random.between(1, 3) {
            let word = self.random.pick(&["save", "load"]);
            self.say(format!("{} {}", word, image));
            self.say(format!("sum image{}", image));
        }
        self.say(format!("lend image{} {}", image, one));
        let word = self.random.pick(&["save", "load"]);
        self.say(format!("{} {}", word, image));
    }

    /// The number of segments may not fit any more, or fit exactly.
    fn lend_the_store_otherwise(&mut self) {
        let segments = self.catalogue().map_or(1, |catalogue| catalogue.segments as u32);
        let exact = segments * 64;
        let length = self.random.pick(&[0, 1, 63, 64, 65, exact - 1, exact, exact + 1, exact + 64, 65_536, 65_600]);
        self.say(format!("lend store {}", length.min(65_600)));
        self.say("tidy");
        self.some_calls();
        let image = self.random.below(4);
        match self.random.below(5) {
            0 => self.say(format!("load {}", image)),
            1 => self.say(format!("save {}", image)),
            2 => self.say("fresh"),
            3 => self.say("sum store"),
            _ => self.say("free 3"),
        };
        if self.random.chance(80) {
            self.say(format!("lend store {}", exact));
            self.some_calls();
        }
    }

    fn some_calls(&mut self) {
        for _ in 0..self.random.between(1, 4) {
            self.any_call();
        }
    }

    /// Saves, or goes back to what was saved.
    pub fn save_or_load(&mut self) {
        let image = self.random.below(4);
        let word = self.random.pick(&["save", "save", "load"]);
        self.say(format!("{} {}", word, image));
        self.say(format!("sum image{}", image));
        self.look();
    }

    /// Any cells of the store, in files or not.
    pub fn poke_the_store(&mut self) {
        for _ in 0..self.random.between(1, 6) {
            let limit = self.random.pick(&[64, 128, 640, 4_096, 65_600]);
            let cell = self.random.below(limit);
            let value = self.a_number();
            self.say(format!("poke store {} {}", cell, value));
        }
        for _ in 0..self.random.between(1, 6) {
            self.access_something();
        }
    }
}
