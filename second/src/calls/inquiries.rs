//! "Inquiries: species, claim, work permit (1 or 0), symbol k of the name, begin, end, value of a pointer, and
//! the number of free segments".

use crate::model::catalogue::Catalogue;
use crate::rules::element::Element;
use crate::rules::refusal::{Answer, Refusal};

#[derive(Clone, Copy, PartialEq, Eq, Debug)]
pub enum Inquiry {
    Species,
    Claim,
    Permit,
    Begin,
    End,
    Symbol(u32),
    Value(u32),
}

pub fn inquire(catalogue: &Catalogue, user: u32, entry: u32, inquiry: Inquiry) -> Answer {
    let opening = catalogue.opening(user, entry)?;
    let number = match inquiry {
        Inquiry::Species => opening.file.species().number(),
        Inquiry::Claim => opening.file.claim(),
        Inquiry::Permit => u32::from(opening.permit),
        Inquiry::Begin => opening.file.begin(),
        Inquiry::End => opening.file.end(),
        Inquiry::Symbol(k) => opening.name.symbol(k),
        Inquiry::Value(pointer) => opening.pointer(pointer).ok_or(Refusal::NotAPointer)?,
    };
    Ok(Element::from(number))
}

/// The number of free segments "names a user, no entry: 20, 1".
pub fn free_segments(catalogue: &Catalogue, user: u32) -> Answer {
    Catalogue::user(user)?;
    Ok(catalogue.free.len() as Element)
}
