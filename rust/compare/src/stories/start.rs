//! How a wild story starts, and goes on where every call would be refused.

use crate::teller::{Teller, Told};

impl Teller {
    /// A fresh start over a store of any contents.
    pub fn start(&mut self) -> Told {
        let segments = match self.random.below(8) {
            0 => self.random.one_of(&[1, 2, 1023, 1024, 1025]),
            1..=5 => self.random.between(1, 12),
            _ => self.random.between(12, 80),
        };
        let length = (64 * segments + self.random.one_of(&[0, 0, 1, 63])).min(65_600);
        self.say(format!("lend store {length}"))?;
        self.fill_the_store(length)?;
        self.say("fresh")?;
        Ok(())
    }

    /// Cells that a taken segment must not keep.
    fn fill_the_store(&mut self, length: u32) -> Told {
        let cells = match self.random.below(3) {
            0 => 0,
            1 => length.min(2_000),
            _ => 100,
        };
        for _ in 0..cells {
            let (cell, value) = (self.random.below(length), self.random.cell());
            self.say(format!("poke store {cell} {value}"))?;
        }
        Ok(())
    }

    /// Where every call would be refused, something is done about it.
    pub fn mend(&mut self) -> Told {
        if self.catalogue().is_some() {
            return Ok(());
        }
        self.say(format!("lend tables {}", dorrivand::tables_length()))?;
        let image = self.random.below(4);
        if self.random.once_in(2) && self.say(format!("load {image}"))? {
            return Ok(());
        }
        if !self.say("fresh")? {
            self.say("lend store 640")?;
            self.say("fresh")?;
        }
        Ok(())
    }
}
