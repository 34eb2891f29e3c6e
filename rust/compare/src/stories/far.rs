//! Files at the last positions that there are, where 10 is given, and about the end that was the greatest before.

use crate::teller::{Teller, Told};
use filing::cells::fields::{opening, opening_cells};
use filing::rules::sizes::GREATEST_END;

/// Document 01's limit, where nothing is refused any more.
const OLD_GREATEST_END: u32 = 16_777_215;

impl Teller {
    /// An empty file comes to lie far up, as if all before it had been appended and dropped, and is used there. Where none is
    /// empty, one is made.
    pub fn go_far(&mut self) -> Told {
        let Some(at) = self.random.any_of(&self.empty_entries()) else { return self.open_new() };
        let position = self.far_position();
        self.move_empty_file(at, position)?;
        for _ in 0..self.random.between(3, 9) {
            match self.random.below(7) {
                0 => self.run_at(at)?,
                1 => self.handle_pointers_at(at)?,
                2 => self.inquire_at(at)?,
                _ => self.access_at(at)?,
            }
        }
        Ok(())
    }

    pub fn far_position(&mut self) -> u32 {
        let few = self.random.below(8);
        match self.random.below(5) {
            0 => OLD_GREATEST_END + 4 - few,
            1 => (1 << self.random.between(24, 31)) + 4 - few,
            _ => GREATEST_END - self.random.one_of(&[0, 1, 1, 2, few, 63, 64, 65]),
        }
    }

    /// The work pointer comes along or stays below the begin.
    pub fn move_empty_file(&mut self, (user, entry): (u32, u32), position: u32) -> Told {
        let start = opening_cells(user as usize, entry as usize).start;
        let mut fields = vec![opening::BEGIN, opening::END];
        if !self.random.once_in(4) {
            fields.push(opening::WORK);
        }
        for field in fields {
            self.say(format!("poke tables {} {position}", start + field))?;
        }
        Ok(())
    }
}
