//! Calls that write and read elements, one by one or by runs, and their answers.

use filing::rules::element::{Element, Kind};
use filing::text::line::Line;

/// A call that writes or reads elements.
pub struct Call {
    pub word: &'static str,
    pub kind: Kind,
    pub user: u32,
    pub entry: u32,
    pub pointer: u32,
    /// The number that is written, or the list that is written or filled.
    pub number: Option<Element>,
    pub list: Option<usize>,
}

pub fn call(line: &Line) -> Option<Call> {
    let (word, kind, user, entry, pointer) = match *line {
        Line::Write(kind, user, entry, pointer, _) => ("write", kind, user, entry, pointer),
        Line::Next(kind, user, entry, pointer) => ("next", kind, user, entry, pointer),
        Line::Prev(kind, user, entry, pointer) => ("prev", kind, user, entry, pointer),
        Line::Writes(user, entry, pointer, _) => ("writes", Kind::Plain, user, entry, pointer),
        Line::Nexts(user, entry, pointer, _) => ("nexts", Kind::Plain, user, entry, pointer),
        _ => return None,
    };
    let number = match *line {
        Line::Write(_, _, _, _, x) => Some(x),
        _ => None,
    };
    let list = match *line {
        Line::Writes(_, _, _, list) | Line::Nexts(_, _, _, list) => Some(list),
        _ => None,
    };
    Some(Call { word, kind, user, entry, pointer, number, list })
}

/// The number of the refusal that was answered or that stopped a run.
pub fn refusal(said: &str) -> Option<&str> {
    match said.split(' ').collect::<Vec<_>>()[..] {
        ["refused", number] => Some(number),
        ["rest" | "filled", _, number] if number != "0" => Some(number),
        _ => None,
    }
}
