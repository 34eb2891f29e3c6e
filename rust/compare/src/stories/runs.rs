//! Runs of lists of any length, with numbers in them that the file mostly takes.

use crate::door::LIST_CELLS;
use crate::pair::Difference;
use crate::teller::{Teller, Told};
use filing::rules::element::Kind;

impl Teller {
    /// A run with arguments that mostly make sense.
    pub fn run_of_elements(&mut self) -> Told {
        let at = match self.random.once_in(4) {
            true => self.open_entry(),
            false => self.working_entry(),
        };
        self.run_at(at)
    }

    pub fn run_at(&mut self, at: (u32, u32)) -> Told {
        let (call, pointer) = (self.random.one_of(&["writes", "nexts"]), self.pointer());
        self.say_run(call, at, pointer)?;
        Ok(())
    }

    /// A run; delivers whether nothing stopped it.
    pub fn say_run(&mut self, call: &str, at: (u32, u32), pointer: u32) -> Result<bool, Difference> {
        let ((user, entry), list) = (at, self.random.below(2));
        if self.random.once_in(2) {
            self.lend_list(list, at)?;
        }
        self.say(format!("{call} {user} {entry} {pointer} {list}"))
    }

    /// None, one, a few, about a segment's elements, all; and other numbers in some of the cells, lent or not.
    fn lend_list(&mut self, list: u32, at: (u32, u32)) -> Told {
        let all = LIST_CELLS as u32;
        let (any, few) = (self.random.below(all + 1), self.random.between(2, 9));
        let length = self.random.one_of(&[0, 1, few, few, 40, 63, 64, 65, 129, any, all]);
        self.say(format!("lend list{list} {length}"))?;
        for _ in 0..self.random.below(4) {
            let limit = self.random.one_of(&[8, 64, all]);
            let (cell, value) = (self.random.below(limit), self.number_at(at, Kind::Plain));
            self.say(format!("poke list{list} {cell} {value}"))?;
        }
        Ok(())
    }
}
