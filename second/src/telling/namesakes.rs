//! Files of one name that several users have, private ones and perhaps a public one, and who finds which of them: "A file
//! that is another's and private must look absent: 11 in place of 12, for read and for work".

use super::arguments::text_of;
use super::teller::Teller;
use crate::model::opening::WORK;
use crate::rules::name::Name;

impl Teller {
    /// A few users ask for one name, first while perhaps nobody has it, then with one more file of that name each time.
    pub fn ask_for_namesakes(&mut self) {
        let name = self.a_name_for_several();
        let users: Vec<u32> = (0..4).map(|_| self.random.below(8)).collect();
        let mut opened = Vec::new();
        for _ in 0..self.random.between(3, 5) {
            for _ in 0..self.random.between(2, 6) {
                let user = self.random.pick(&users);
                if let Some(entry) = self.ask_by_name(user, &name) {
                    opened.push((user, entry));
                    self.use_what_was_found(user, entry);
                }
            }
            let owner = self.random.pick(&users);
            self.make_a_namesake(owner, &name);
        }
        self.look();
        for (user, entry) in opened {
            if self.is_open(user, entry) {
                self.end_work(user, entry);
            }
        }
    }

    /// A name that some record has, or one that most likely none has.
    fn a_name_for_several(&mut self) -> Vec<u8> {
        match self.a_record() {
            Some((_, record)) if self.random.chance(60) => text_of(&record.name),
            _ => format!("evict{}", self.random.below(1000)).into_bytes(),
        }
    }

    /// Everyone who has a file of this name.
    pub fn owners_of(&self, name: &Name) -> Vec<u32> {
        let records = self.catalogue().into_iter().flat_map(|catalogue| catalogue.records.iter().flatten());
        records.filter(|record| record.name == *name).map(|record| record.owner as u32).collect()
    }

    /// Opens by name, for work or for reading. Delivers the entry where that was done, after a few words that show
    /// which of several files was found.
    pub fn ask_by_name(&mut self, user: u32, name: &[u8]) -> Option<u32> {
        let entry = self.closed_entry_of(user);
        let word = self.random.pick(&["read", "work"]);
        if !self.open_old(word, user, entry, name).starts_with("done") {
            return None;
        }
        for word in ["species", "begin", "end"] {
            self.say(format!("{} {} {}", word, user, entry));
        }
        self.next(user, entry, WORK);
        Some(entry)
    }

    /// Closed again, as public or as private; or it stays open, so that "not now" is the answer to those who may find the
    /// file, and to them alone. A new name is not the record's before the close.
    fn use_what_was_found(&mut self, user: u32, entry: u32) {
        if self.random.chance(15) {
            let new_name = self.a_name();
            self.say_with_name("rename", user, entry, &new_name);
        }
        match self.random.weighted(&[15, 15, 15, 55]) {
            0 => self.say(format!("close {} {}", user, entry)),
            1 => self.say(format!("abandon {} {}", user, entry)),
            2 => self.say(format!("public {} {}", user, entry)),
            _ => self.say(format!("permit {} {}", user, entry)),
        };
    }

    /// A new file that gets this name, unless its owner has one already, or it is closed as public and one is public.
    fn make_a_namesake(&mut self, owner: u32, name: &[u8]) {
        let entry = self.closed_entry_of(owner);
        let species = self.a_known_species();
        let opened = self.say(format!("new {} {} {}", owner, entry, species));
        if self.gives_up_after(&opened) {
            return;
        }
        let count = self.random.below(4);
        self.append_some(owner, entry, count);
        self.say_with_name("rename", owner, entry, name);
        let word = self.random.pick(&["close", "public"]);
        if self.say(format!("{} {} {}", word, owner, entry)).starts_with("refused") && self.random.chance(80) {
            self.say(format!("abandon {} {}", owner, entry));
        }
    }
}
