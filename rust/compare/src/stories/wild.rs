//! Any lengths, any cells, any numbers, any bytes.

use super::images::FORM_1_LENGTH;
use crate::line::CALLS;
use crate::teller::{Teller, Told};
use filing::rules::element::Kind;

impl Teller {
    pub fn wild(&mut self) -> Told {
        self.sense = 4;
        if self.random.once_in(3) {
            self.any_cells_everywhere()?;
        }
        self.start()?;
        for _ in 0..120 {
            self.lend_anything()?;
            for _ in 0..self.random.below(8) {
                self.wild_call()?;
            }
            self.any_call()?;
            if !self.random.once_in(4) {
                self.lend_rightly()?;
                self.mend()?;
            }
            for _ in 0..self.random.below(6) {
                self.any_call()?;
            }
        }
        Ok(())
    }

    /// Tables and an image of random cells: nothing but a fresh start and a load of something else helps.
    fn any_cells_everywhere(&mut self) -> Told {
        for cell in 0..dorrivand::tables_length() {
            let value = self.wild_number();
            self.say(format!("poke tables {cell} {value}"))?;
        }
        let image = self.random.below(4);
        for cell in 0..dorrivand::image_length() {
            let value = self.random.cell();
            self.say(format!("poke image{image} {cell} {value}"))?;
        }
        self.say(format!("load {image}"))?;
        for _ in 0..50 {
            self.wild_call()?;
        }
        Ok(())
    }

    fn lend_anything(&mut self) -> Told {
        let (tables, image) = (dorrivand::tables_length() as u32, dorrivand::image_length() as u32);
        let fitting = self.catalogue().map_or(640, |catalogue| catalogue.segments as u32 * 64);
        let any_store = self.random.below(65_601);
        let near = self.random.one_of(&[fitting - 1, fitting, fitting + 1]);
        let store = self.random.one_of(&[0, 1, 63, 64, near, near, 65_535, 65_536, 65_600, any_store]);
        let (any_tables, any_image) = (self.random.below(tables + 65), self.random.below(1_025));
        let tables =
            self.random.one_of(&[0, 1, tables - 1, tables, tables, tables, tables + 1, tables + 64, any_tables]);
        let image = self.random.one_of(&[0, 1, FORM_1_LENGTH, image - 1, image, image, image + 1, 1_024, any_image]);
        let which = self.random.below(4);
        match self.random.below(6) {
            0 => self.say(format!("lend tables {tables}"))?,
            1 => self.say(format!("lend image{which} {image}"))?,
            2 | 3 => self.say(format!("lend store {store}"))?,
            _ => false,
        };
        Ok(())
    }

    fn lend_rightly(&mut self) -> Told {
        self.say(format!("lend tables {}", dorrivand::tables_length()))?;
        for image in 0..4 {
            self.say(format!("lend image{image} {}", dorrivand::image_length()))?;
        }
        Ok(())
    }

    /// Any call with any numbers.
    fn wild_call(&mut self) -> Told {
        let call = self.random.one_of(&CALLS);
        let (user, entry) = match self.random.once_in(2) {
            true => self.open_entry(),
            false => (self.wild_number(), self.wild_number()),
        };
        let (third, fourth) = (self.wild_number(), self.wild_number());
        match call {
            "fresh" if !self.random.once_in(10) => self.say("free 7")?,
            "fresh" | "tidy" => self.say(call)?,
            "save" | "load" => self.say(format!("{call} {}", third % 4))?,
            "up" | "down" => return self.move_anything(call),
            "free" => self.say(format!("free {user}"))?,
            "work" | "read" | "rename" => {
                let length = self.random.one_of(&[0, 1, 2, 5, 12, 13, 30, 300]);
                let name: Vec<u8> = (0..length).map(|_| self.wild_byte()).collect();
                self.say_named(call, (user, entry), &name)?
            }
            "new" | "pointer" | "delete" | "next" | "prev" | "next_signed" | "prev_signed" | "symbol" | "value" => {
                self.say(format!("{call} {user} {entry} {third}"))?
            }
            "write_signed" => {
                let number = self.number_at((user, entry), Kind::Signed);
                self.say(format!("write_signed {user} {entry} {third} {number}"))?
            }
            "write" => self.say(format!("write {user} {entry} {third} {fourth}"))?,
            "writes" | "nexts" => {
                let pointer = self.random.one_of(&[third, third % 8]);
                self.say_run(call, (user, entry), pointer)?
            }
            _ => self.say(format!("{call} {user} {entry}"))?,
        };
        Ok(())
    }

    /// Often a byte of a name, else any.
    fn wild_byte(&mut self) -> u8 {
        match self.random.below(4) {
            0 => self.random.any() as u8,
            1 => self.random.one_of(b" \t\n\r\0/:`{@GZ"),
            _ => self.random.one_of(b"0123456789abcdefghijklmnopqrstuvwxyz"),
        }
    }
}
