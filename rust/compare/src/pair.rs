//! The library and the second program side by side: every line to both, and all that they say and hold compared.

use crate::door::Door;
use crate::law::is_lawful;
use crate::line::Line;
use crate::reply::Reply;
use crate::tally::Tally;
use filing::text::answering::Desk;
use filing::text::line::BufferName;

/// What was the first difference, after the last line of the history.
#[derive(Debug)]
pub struct Difference(pub String);

pub struct Pair {
    door: Door,
    pub second: Desk,
    pub history: Vec<Vec<u8>>,
    pub tally: Tally,
}

impl Pair {
    pub fn new(apart: bool) -> Pair {
        Pair { door: Door::new(apart), second: Desk::new(), history: Vec::new(), tally: Tally::default() }
    }

    /// Says a line to both; delivers what it came to where it is a call. Lines that second does not know, and those that only
    /// look, are said to nobody: all cells are looked at after every call.
    pub fn say(&mut self, line: &[u8]) -> Result<Option<Reply>, Difference> {
        let Some(read) = Line::read(line) else { return Ok(None) };
        let second = self.second.answer(line).unwrap_or_default();
        if second.starts_with('?') {
            return Ok(None);
        }
        self.history.push(line.to_vec());
        let Some(reply) = self.door.obey(read) else { return Ok(None) };
        let door = reply.text();
        if door != second {
            return Err(Difference(format!("the door answers {door}, second answers {second}")));
        }
        if let Line::Call(call, numbers, _) = read {
            self.tally.count(call, numbers, &reply);
            if !is_lawful(call, &reply) {
                return Err(Difference(format!("both answer {door}, which the documents do not give to this call")));
            }
        }
        self.compare_cells()?;
        Ok(Some(reply))
    }

    fn compare_cells(&self) -> Result<(), Difference> {
        same("tables", self.door.tables.cells(), &self.second.cells(BufferName::Tables))?;
        same("store", self.door.store.cells(), &self.second.cells(BufferName::Store))?;
        for (number, name) in ["image0", "image1", "image2", "image3"].into_iter().enumerate() {
            same(name, self.door.images[number].cells(), &self.second.cells(BufferName::Image(number)))?;
        }
        for (number, name) in ["list0", "list1"].into_iter().enumerate() {
            same(name, self.door.lists[number].cells(), &self.second.cells(BufferName::List(number)))?;
        }
        match self.door.guards_stand() {
            true => Ok(()),
            false => Err(Difference("the door wrote beside what was lent".to_string())),
        }
    }
}

fn same(buffer: &str, door: &[u32], second: &[u32]) -> Result<(), Difference> {
    if door == second {
        return Ok(());
    }
    let differing = door.iter().zip(second).filter(|(door, second)| door != second).count();
    let first = door.iter().zip(second).position(|(door, second)| door != second);
    Err(Difference(match first {
        Some(cell) => format!(
            "{differing} cells of {buffer} differ, the first is cell {cell}: the door has {}, second has {}",
            door[cell], second[cell]
        ),
        None => format!("{buffer} has {} cells here and {} there", door.len(), second.len()),
    }))
}
