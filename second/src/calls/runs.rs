//! "Runs of elements": a lent list written through one pointer, and a lent list filled by next. "The outcome equals
//! the single calls made one after another", so these are the single calls, made one after another. Document 02 has no signed
//! run: a list holds plain numbers.

use super::access;
use crate::model::catalogue::Catalogue;
use crate::model::opening::BEGIN;
use crate::model::store::Store;
use crate::rules::element::{Element, Kind};
use crate::rules::refusal::Refusal;

/// "that refusal's number, or 0".
pub const NOT_REFUSED: u32 = 0;

/// "It stops at the first element that the single call would refuse, and the writer hands back the unwritten rest":
/// how many elements are unwritten, and the refusal's number or 0.
pub fn write_run(
    catalogue: &mut Catalogue,
    store: &mut Store,
    user: u32,
    entry: u32,
    p: u32,
    list: &[u32],
) -> (usize, u32) {
    if list.is_empty() {
        return (0, number_or_0(judge_empty_run(catalogue, user, entry, p, true)));
    }
    for (written, &x) in list.iter().enumerate() {
        if let Err(refusal) = access::write(catalogue, store, Kind::Plain, user, entry, p, Element::from(x)) {
            return (list.len() - written, refusal.number());
        }
    }
    (0, NOT_REFUSED)
}

/// "The fill answers how many it filled, puts the number in a lent place likewise, and leaves the places it didn't
/// reach as they were."
pub fn fill_run(catalogue: &mut Catalogue, user: u32, entry: u32, p: u32, list: &mut [u32]) -> (usize, u32) {
    if list.is_empty() {
        return (0, number_or_0(judge_empty_run(catalogue, user, entry, p, p == BEGIN)));
    }
    for (filled, place) in list.iter_mut().enumerate() {
        match access::next(catalogue, Kind::Plain, user, entry, p) {
            // A plain element is at most a cell wide.
            Ok(element) => *place = element as u32,
            Err(refusal) => return (filled, refusal.number()),
        }
    }
    (list.len(), NOT_REFUSED)
}

/// "a list of length 0 still gets refusals 20, 1, 2, 4, 5 where they apply", and since document 02's species 6 also 19, "at
/// length 0 too", after 2 and before 4. It gets no later one: those are about an element, and there is none. Refusal 20 was
/// looked for before. "Write always, next through 0 and prev through 1 need the work permit."
fn judge_empty_run(catalogue: &Catalogue, user: u32, entry: u32, p: u32, needs_permit: bool) -> Result<(), Refusal> {
    let opening = catalogue.opening(user, entry)?;
    opening.check_kind(Kind::Plain)?;
    opening.pointer(p).ok_or(Refusal::NotAPointer)?;
    if needs_permit && !opening.permit {
        return Err(Refusal::NoWorkPermit);
    }
    Ok(())
}

fn number_or_0(judged: Result<(), Refusal>) -> u32 {
    judged.map_or_else(Refusal::number, |()| NOT_REFUSED)
}
