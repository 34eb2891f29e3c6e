//! Permanent files, so that an image has records.

use crate::teller::{Teller, Told};

/// Those that there are.
const SPECIES: u32 = 7;

impl Teller {
    /// Makes some files of any species and name, private and public, with elements or without, few of them far up.
    pub fn keep_files(&mut self) -> Told {
        for _ in 0..self.random.below(4) {
            let (user, species) = (self.random.below(8), self.random.below(SPECIES));
            let at = self.closed_entry_of(user);
            let (user, entry) = at;
            if !self.say(format!("new {user} {entry} {species}"))? {
                return Ok(());
            }
            if self.random.once_in(6) {
                let position = self.far_position();
                self.move_empty_file(at, position)?;
            }
            for _ in 0..self.random.below(4) {
                self.access_at(at)?;
                self.run_at(at)?;
            }
            let (name, close) = (self.name(), self.random.one_of(&["close", "public"]));
            self.say_named("rename", at, &name)?;
            self.say(format!("{close} {user} {entry}"))?;
        }
        Ok(())
    }
}
