//! Own pointers and the work pointer.

use crate::model::catalogue::Catalogue;
use crate::model::opening::own_place;
use crate::rules::element::Element;
use crate::rules::refusal::{Answer, Refusal};
use crate::rules::sizes::FIRST_OWN;

/// "Reset puts pointer 2 at the begin value."
pub fn reset(catalogue: &mut Catalogue, user: u32, entry: u32) -> Answer {
    let opening = catalogue.opening_mut(user, entry)?;
    opening.work = opening.file.begin();
    Ok(0)
}

/// "A new own pointer takes the lowest free name, which is the answer, and the value of a given pointer."
pub fn new_pointer(catalogue: &mut Catalogue, user: u32, entry: u32, given: u32) -> Answer {
    let opening = catalogue.opening_mut(user, entry)?;
    let value = opening.pointer(given).ok_or(Refusal::NotAPointer)?;
    let place = opening.own.iter().position(Option::is_none).ok_or(Refusal::NoOwnPointerLeft)?;
    opening.own[place] = Some(value);
    Ok((FIRST_OWN + place) as Element)
}

/// "Only 3 to 7 can be deleted."
pub fn delete(catalogue: &mut Catalogue, user: u32, entry: u32, pointer: u32) -> Answer {
    let opening = catalogue.opening_mut(user, entry)?;
    let place = own_place(pointer).ok_or(Refusal::NotAPointer)?;
    opening.own[place].take().ok_or(Refusal::NotAPointer)?;
    Ok(0)
}
