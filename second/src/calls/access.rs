//! Writing and reading elements through pointers. Plain and signed calls are one rule: the kind says which species they
//! refuse, and the species which numbers.

use crate::model::catalogue::{Access, Catalogue};
use crate::model::opening::{BEGIN, END};
use crate::model::store::{Segment, Store};
use crate::rules::element::{Element, Kind};
use crate::rules::refusal::{Answer, Refusal};
use crate::rules::sizes::{GREATEST_END, MOST_HELD};

/// "Write: v < b is 6; p not 1 and v >= e is 7." Then document 02's 23, "after 7 and before 10, through any pointer".
pub fn write(
    catalogue: &mut Catalogue,
    store: &mut Store,
    kind: Kind,
    user: u32,
    entry: u32,
    p: u32,
    x: Element,
) -> Answer {
    let mut access = catalogue.access(user, entry)?;
    access.opening.check_kind(kind)?;
    let v = access.opening.pointer(p).ok_or(Refusal::NotAPointer)?;
    if !access.opening.permit {
        return Err(Refusal::NoWorkPermit);
    }
    if v < access.opening.file.begin() {
        return Err(Refusal::BelowTheBegin);
    }
    if p != END && v >= access.opening.file.end() {
        return Err(Refusal::BeyondTheEnd);
    }
    // "Write through pointer 0 is judged too", though nothing of the number is stored.
    if !access.opening.file.species().takes(x) {
        return Err(Refusal::NumberOutOfRange);
    }
    match p {
        // "Through 0: the first element is dropped, no segment is taken and no store cell changes."
        BEGIN => drop_first(&mut access),
        END => append(&mut access, store, x)?,
        _ => {
            replace(&mut access, store, v, x)?;
            access.opening.move_pointer(p, v + 1);
        }
    }
    Ok(0)
}

/// "Next: v < b is 6, v >= e is 7. Delivers position v, v grows. Through 0 the element leaves the file."
pub fn next(catalogue: &mut Catalogue, kind: Kind, user: u32, entry: u32, p: u32) -> Answer {
    let mut access = catalogue.access(user, entry)?;
    access.opening.check_kind(kind)?;
    let v = access.opening.pointer(p).ok_or(Refusal::NotAPointer)?;
    if p == BEGIN && !access.opening.permit {
        return Err(Refusal::NoWorkPermit);
    }
    if v < access.opening.file.begin() {
        return Err(Refusal::BelowTheBegin);
    }
    if v >= access.opening.file.end() {
        return Err(Refusal::BeyondTheEnd);
    }
    let element = access.opening.file.element(v);
    match p {
        BEGIN => drop_first(&mut access),
        _ => access.opening.move_pointer(p, v + 1),
    }
    Ok(element)
}

/// "Prev: v <= b is 6, v > e is 7. v falls by 1, delivers that position. Through 1 the element leaves the file."
pub fn prev(catalogue: &mut Catalogue, kind: Kind, user: u32, entry: u32, p: u32) -> Answer {
    let mut access = catalogue.access(user, entry)?;
    access.opening.check_kind(kind)?;
    let v = access.opening.pointer(p).ok_or(Refusal::NotAPointer)?;
    if p == END && !access.opening.permit {
        return Err(Refusal::NoWorkPermit);
    }
    if v <= access.opening.file.begin() {
        return Err(Refusal::BelowTheBegin);
    }
    if v > access.opening.file.end() {
        return Err(Refusal::BeyondTheEnd);
    }
    let element = access.opening.file.element(v - 1);
    match p {
        END => drop_last(&mut access),
        _ => access.opening.move_pointer(p, v - 1),
    }
    Ok(element)
}

fn drop_first(access: &mut Access) {
    if let Some(segment) = access.opening.file.drop_first() {
        access.let_go(segment);
    }
}

fn drop_last(access: &mut Access) {
    if let Some(segment) = access.opening.file.drop_last() {
        access.let_go(segment);
    }
}

/// "Through 1: append, e grows by 1." Refused in the order 10, 8, 9.
fn append(access: &mut Access, store: &mut Store, x: Element) -> Result<(), Refusal> {
    let position = access.opening.file.end();
    if position == GREATEST_END {
        return Err(Refusal::PositionsUsedUp);
    }
    let segment = match access.opening.file.segment_for(position) {
        Some(held) => writable(access, store, position, held)?,
        None => {
            // "32 segments full and nothing free: append is 8, not 9."
            if access.opening.file.segments().len() == MOST_HELD {
                return Err(Refusal::ThirtyThirdSegment);
            }
            let taken = access.take_segment()?;
            store.zero_segment(taken);
            access.opening.file.add_segment(taken);
            taken
        }
    };
    let species = access.opening.file.species();
    store.put_element(segment, species, species.offset_of(position), x);
    access.opening.file.append(x);
    Ok(())
}

/// "Else position v is replaced."
fn replace(access: &mut Access, store: &mut Store, position: u32, x: Element) -> Result<(), Refusal> {
    // A position of the file always has its segment.
    if let Some(held) = access.opening.file.segment_for(position) {
        let segment = writable(access, store, position, held)?;
        let species = access.opening.file.species();
        store.put_element(segment, species, species.offset_of(position), x);
        access.opening.file.replace(position, x);
    }
    Ok(())
}

/// "before a write into a shared segment, that segment is copied to a taken one."
fn writable(access: &mut Access, store: &mut Store, position: u32, held: Segment) -> Result<Segment, Refusal> {
    if !access.is_shared(held) {
        return Ok(held);
    }
    let taken = access.take_segment()?;
    store.copy_segment(held, taken);
    access.opening.file.exchange_segment(position, taken);
    Ok(taken)
}
