//! Calls with one thing wrong, and made again when it is put right.

use crate::spoiling::Spoiling;
use crate::teller::{Teller, Told};
use filing::text::line::BufferName;

pub struct Trial {
    pub call: &'static str,
    pub spoiling: Spoiling,
    /// The lines that spoil something, and those that put it right.
    pub changes: (Vec<String>, Vec<String>),
    /// The call where it is spoiled, and where it is right.
    pub wrong: String,
    pub right: String,
}

impl Teller {
    /// Counts it if the one thing was what the call was refused for.
    pub fn try_spoiled(&mut self, trial: Trial) -> Told {
        let (spoil, mend) = trial.changes;
        self.say_all(&spoil)?;
        let reply = self.pair.say(trial.wrong.as_bytes())?;
        let refused = reply.is_some_and(|reply| reply.outcome() == trial.spoiling.refusal());
        self.say_all(&mend)?;
        if self.say(trial.right)? && refused {
            self.pair.tally.count_spoiled(trial.call, trial.spoiling);
        }
        Ok(())
    }

    pub fn say_all(&mut self, lines: &[String]) -> Told {
        lines.iter().try_for_each(|line| self.say(line).map(drop))
    }

    pub fn image_cell(&self, image: u32, cell: u32) -> u32 {
        self.pair.second.cells(BufferName::Image(image as usize))[cell as usize]
    }

    /// The lines that flip these bits of a cell, and flip them back.
    pub fn flip(&self, image: u32, cell: u32, bits: u32) -> (Vec<String>, Vec<String>) {
        let before = self.image_cell(image, cell);
        let poke = |value: u32| vec![format!("poke image{image} {cell} {value}")];
        (poke(before ^ bits), poke(before))
    }
}

/// The line that lends so many cells of an image buffer.
pub fn lend(image: u32, length: u32) -> String {
    format!("lend image{image} {length}")
}
