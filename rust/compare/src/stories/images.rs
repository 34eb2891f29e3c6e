//! Images that are as they were saved but for one thing, and are loaded when it is put right.

use super::trials::{lend, Trial};
use crate::spoiling::{spoilings_of, Spoiling};
use crate::teller::{Teller, Told};

pub const FORM_1_LENGTH: u32 = 897;
pub const FORM_2_LENGTH: u32 = 961;

/// Form 2: "16 zero bits at a record's end: 480 bits".
const RECORDS: u32 = 64;
pub const RECORD_CELLS: u32 = 15;
const SPARE_BITS: u32 = 16;

/// From the number of form 2 to that of form 1, and back.
const OTHER_FORM: u32 = (2 ^ 1) << 24;

impl Teller {
    /// Saves, spoils the image and loads it, then mends it and loads it again.
    pub fn load_spoiled(&mut self) -> Told {
        let image = self.random.below(4);
        self.say(lend(image, FORM_2_LENGTH))?;
        if !self.say(format!("save {image}"))? {
            return Ok(());
        }
        let spoiling = self.random.one_of(&spoilings_of("load"));
        let changes = match spoiling {
            Spoiling::Form1 => self.flip(image, 0, OTHER_FORM),
            Spoiling::OldLength => (vec![lend(image, FORM_1_LENGTH)], vec![lend(image, FORM_2_LENGTH)]),
            _ => {
                let (record, bit) = (self.random.between(1, RECORDS), self.random.below(SPARE_BITS));
                self.flip(image, record * RECORD_CELLS, 1 << bit)
            }
        };
        let load = format!("load {image}");
        self.try_spoiled(Trial { call: "load", spoiling, changes, wrong: load.clone(), right: load })
    }
}
