//! "A busy landing log that drops its head each night": files near the end of positions, used in every way, saved, loaded
//! and read again.

use super::teller::Teller;
use crate::model::opening::{BEGIN, END, WORK};

/// More elements than this are not passed over one by one.
const MOST_PASSED: u32 = 7;

impl Teller {
    /// A new file there, closed under a name that most likely no other file has.
    pub fn keep_a_far_file(&mut self) {
        let (user, entry) = self.a_closed_entry();
        let species = self.a_known_species();
        let opened = self.say(format!("new {} {} {}", user, entry, species));
        if self.gives_up_after(&opened) {
            return;
        }
        let position = self.a_far_position();
        self.move_empty_file(user, entry, position);
        self.use_a_far_file(user, entry);
        let name = format!("far{}", self.random.below(100_000));
        self.say_with_name("rename", user, entry, name.as_bytes());
        let word = self.random.pick(&["close", "close", "public"]);
        self.end_surely(word, user, entry);
        self.save_and_load();
        self.use_the_old_file(user, name.as_bytes());
    }

    /// Appended to until positions are used up or a little less far, and then used in some of the ways that there are.
    fn use_a_far_file(&mut self, user: u32, entry: u32) {
        let few = self.random.between(1, 5);
        self.append_one_by_one(user, entry, few);
        if self.random.chance(60) {
            self.append_a_run(user, entry, few);
        }
        self.say(format!("claim {} {}", user, entry));
        for _ in 0..self.random.between(1, 3) {
            match self.random.weighted(&[20, 35, 15, 10, 20]) {
                0 => self.use_an_own_pointer(user, entry),
                1 => self.drop_the_head(user, entry),
                2 => self.run_from_the_begin(user, entry),
                3 => self.append_some(user, entry, 2),
                _ => self.pass_over(user, entry),
            }
        }
    }

    /// From the begin to the end and back, a little further than there are elements.
    fn pass_over(&mut self, user: u32, entry: u32) {
        self.say(format!("reset {} {}", user, entry));
        for word in ["next", "prev"] {
            for _ in 0..MOST_PASSED {
                if self.step(word, user, entry, WORK).starts_with("refused") {
                    break;
                }
            }
            self.say(format!("value {} {} {}", user, entry, WORK));
            if self.random.chance(20) {
                self.run_through(user, entry, WORK);
            }
        }
    }

    /// A pointer that stands at the end, goes back by one, and comes to the end again by writing.
    fn use_an_own_pointer(&mut self, user: u32, entry: u32) {
        let made = self.say(format!("pointer {} {} {}", user, entry, END));
        if let Some(own) = made.strip_prefix("done ").and_then(|name| name.parse().ok()) {
            self.write(user, entry, own);
            self.prev(user, entry, own);
            self.write(user, entry, own);
            self.next(user, entry, own);
            self.say(format!("value {} {} {}", user, entry, own));
            if self.random.chance(60) {
                self.say(format!("delete {} {} {}", user, entry, own));
            }
        }
    }

    /// In each of the three ways, perhaps until the begin has come to the greatest end too. The work pointer stays, so it may
    /// then stand below the begin.
    fn drop_the_head(&mut self, user: u32, entry: u32) {
        for _ in 0..self.random.between(1, 3) {
            match self.random.weighted(&[40, 35, 25]) {
                0 => {
                    self.write(user, entry, BEGIN);
                }
                1 => {
                    self.next(user, entry, BEGIN);
                }
                _ => {
                    let count = self.random.between(1, 4);
                    self.drop_from_the_begin(user, entry, count);
                }
            }
        }
        self.say(format!("begin {} {}", user, entry));
        self.say(format!("claim {} {}", user, entry));
        if self.random.chance(40) {
            self.run_through(user, entry, WORK);
        }
    }

    fn save_and_load(&mut self) {
        let image = self.random.below(4);
        self.say(format!("save {}", image));
        self.say(format!("sum image{}", image));
        if self.random.chance(40) {
            self.say("fresh");
        }
        if self.random.chance(70) {
            self.say(format!("load {}", image));
        }
    }

    /// Read, or worked on: then its segments are shared until they are changed.
    fn use_the_old_file(&mut self, user: u32, name: &[u8]) {
        let entry = self.closed_entry_of(user);
        let word = self.random.pick(&["read", "work"]);
        let opened = self.say_with_name(word, user, entry, name);
        if self.gives_up_after(&opened) {
            return;
        }
        self.say(format!("value {} {} {}", user, entry, WORK));
        self.pass_over(user, entry);
        if word == "work" {
            self.use_a_far_file(user, entry);
        }
        self.inquire_all(user, entry);
        self.end_work(user, entry);
    }
}
