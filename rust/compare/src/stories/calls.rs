//! Single calls, with arguments that mostly make sense.

use super::numbers::word;
use crate::teller::{bytes_of, Teller, Told};

/// Those that there are, and one that is none.
const SPECIES: u32 = 8;

impl Teller {
    pub fn any_call(&mut self) -> Told {
        match self.random.below(17) {
            0 | 1 => self.open_new(),
            2 | 3 => self.open_old(),
            4 => self.rename(),
            5 => self.end_something(),
            6 | 7 => self.handle_pointers(),
            8 | 9 => self.inquire(),
            10 => self.ask_the_operator(),
            11 => self.run_of_elements(),
            12 => self.go_far(),
            _ => self.access(),
        }
    }

    pub fn open_new(&mut self) -> Told {
        let (user, entry) = self.closed_entry();
        let species = self.random.below(SPECIES);
        let species = self.or_wild(species);
        self.say(format!("new {user} {entry} {species}"))?;
        Ok(())
    }

    /// Opens a record that is there, or a name that may not be.
    fn open_old(&mut self) -> Told {
        let call = self.random.one_of(&["work", "work", "read"]);
        let (user, name) = match self.record() {
            Some((_, record)) if !self.random.once_in(6) => {
                let another = self.random.below(8);
                let user = self.random.one_of(&[record.owner as u32, record.owner as u32, another]);
                (user, bytes_of(&record.name))
            }
            _ => (self.random.below(8), self.name()),
        };
        let at = match self.random.once_in(12) {
            true => (user, self.random.below(4)),
            false => self.closed_entry_of(user),
        };
        let at = (self.or_wild(at.0), self.or_wild(at.1));
        self.say_named(call, at, &name)?;
        Ok(())
    }

    fn rename(&mut self) -> Told {
        let at = match self.random.once_in(8) {
            true => self.open_entry(),
            false => self.working_entry(),
        };
        let name = self.name();
        self.say_named("rename", at, &name)?;
        Ok(())
    }

    fn end_something(&mut self) -> Told {
        let (user, entry) = self.open_entry();
        let call = self.random.one_of(&["close", "close", "public", "public", "abandon"]);
        self.say(format!("{call} {user} {entry}"))?;
        Ok(())
    }

    fn handle_pointers(&mut self) -> Told {
        let at = self.open_entry();
        self.handle_pointers_at(at)
    }

    pub fn handle_pointers_at(&mut self, (user, entry): (u32, u32)) -> Told {
        let pointer = self.pointer();
        let line = match self.random.below(8) {
            0 => format!("reset {user} {entry}"),
            1 => format!("delete {user} {entry} {pointer}"),
            2 => format!("delete {user} {entry} {}", self.random.between(3, 7)),
            3 => format!("value {user} {entry} {pointer}"),
            _ => format!("pointer {user} {entry} {pointer}"),
        };
        self.say(line)?;
        Ok(())
    }

    fn access(&mut self) -> Told {
        let at = match self.random.once_in(4) {
            true => self.open_entry(),
            false => self.working_entry(),
        };
        self.access_at(at)
    }

    pub fn access_at(&mut self, at: (u32, u32)) -> Told {
        let ((user, entry), pointer, kind) = (at, self.pointer(), self.kind_at(at));
        let line = match self.random.below(5) {
            0 => format!("{} {user} {entry} {pointer}", word("next", kind)),
            1 => format!("{} {user} {entry} {pointer}", word("prev", kind)),
            _ => format!("{} {user} {entry} {pointer} {}", word("write", kind), self.number_at(at, kind)),
        };
        self.say(line)?;
        Ok(())
    }

    fn inquire(&mut self) -> Told {
        let at = self.open_entry();
        self.inquire_at(at)
    }

    pub fn inquire_at(&mut self, (user, entry): (u32, u32)) -> Told {
        let call = self.random.one_of(&["species", "claim", "permit", "begin", "end", "symbol", "value", "free"]);
        let line = match call {
            "symbol" => {
                let k = self.random.below(14);
                format!("symbol {user} {entry} {}", self.or_wild(k))
            }
            "value" => format!("value {user} {entry} {}", self.pointer()),
            "free" => format!("free {user}"),
            _ => format!("{call} {user} {entry}"),
        };
        self.say(line)?;
        Ok(())
    }

    fn ask_the_operator(&mut self) -> Told {
        let image = self.random.below(4);
        let line = match self.random.below(30) {
            0 => "fresh".to_string(),
            1..=4 => format!("load {image}"),
            5..=14 => format!("free {}", self.random.below(8)),
            15..=17 => return self.tidy(),
            18..=20 => return self.load_spoiled(),
            21..=24 => return self.move_there_and_back(),
            _ => format!("save {image}"),
        };
        self.say(line)?;
        Ok(())
    }

    /// Mostly after a load of what was just saved: then nothing is open, and the records list what they did.
    fn tidy(&mut self) -> Told {
        if !self.random.once_in(4) {
            let image = self.random.below(4);
            self.say(format!("save {image}"))?;
            self.say(format!("load {image}"))?;
        }
        self.say("tidy")?;
        Ok(())
    }
}
