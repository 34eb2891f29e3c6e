//! Several openings of one record: "for work, if any opening of that record exists; for read, if a work opening of
//! it exists", and what an opening without the work permit may not do.

use super::arguments::text_of;
use super::teller::Teller;

impl Teller {
    pub fn contend_for_a_record(&mut self) {
        let record = match self.a_record() {
            Some((_, record)) => record,
            None => return self.build(),
        };
        let name = text_of(&record.name);
        let mut opened = Vec::new();
        for _ in 0..self.random.between(2, 6) {
            let user = match self.random.chance(55) {
                true => record.owner as u32,
                false => self.a_user(),
            };
            let entry = self.closed_entry_of(user);
            let word = self.random.pick(&["read", "read", "work"]);
            if self.open_old(word, user, entry, &name).starts_with("done") {
                opened.push((user, entry));
            }
        }
        for &(user, entry) in &opened {
            for _ in 0..self.random.between(1, 5) {
                let pointer = self.random.pick(&[0, 1, 2, 2]);
                self.access_through(user, entry, pointer);
            }
            if self.random.chance(40) {
                let new_name = self.a_name();
                self.say_with_name("rename", user, entry, &new_name);
            }
        }
        self.look();
        for (user, entry) in opened {
            let word = self.random.pick(&["close", "close", "abandon", "public", "permit"]);
            self.say(format!("{} {} {}", word, user, entry));
        }
    }

    /// A new or old file renamed to the name of another record, and closed in both ways.
    pub fn clash_with_a_name(&mut self) {
        let (taken, another) = match (self.a_record(), self.a_record()) {
            (Some((_, taken)), Some((_, another))) => (taken, another),
            _ => return self.build(),
        };
        let user = match self.random.chance(60) {
            true => taken.owner as u32,
            false => self.random.below(8),
        };
        let entry = self.closed_entry_of(user);
        if another.owner as u32 == user && self.random.chance(60) {
            self.say_with_name("work", user, entry, &text_of(&another.name));
        } else {
            let species = self.a_known_species();
            self.say(format!("new {} {} {}", user, entry, species));
        }
        self.append_some(user, entry, 1);
        self.say_with_name("rename", user, entry, &text_of(&taken.name));
        for word in ["public", "close"] {
            self.say(format!("{} {} {}", word, user, entry));
        }
        let name = self.a_name();
        self.say_with_name("rename", user, entry, &name);
        self.end_something();
    }

    /// After an opening was refused, calls through its entry say little: mostly the story ends there.
    pub fn gives_up_after(&mut self, answer: &str) -> bool {
        !answer.starts_with("done") && self.random.chance(90)
    }
}
