//! Renaming, closing and abandoning.

use crate::model::catalogue::Catalogue;
use crate::model::opening::Opening;
use crate::model::record::Record;
use crate::rules::name::Name;
use crate::rules::refusal::{Answer, Refusal};

/// "Renaming (needs the work permit) changes the opening's name only."
pub fn rename(catalogue: &mut Catalogue, user: u32, entry: u32, name: Name) -> Answer {
    let opening = catalogue.opening_mut(user, entry)?;
    if !opening.permit {
        return Err(Refusal::NoWorkPermit);
    }
    opening.name = name;
    Ok(0)
}

/// "*Close*, private or public."
pub fn close(catalogue: &mut Catalogue, user: u32, entry: u32, public: bool) -> Answer {
    let opening = catalogue.opening(user, entry)?;
    let (permit, scratch, name) = (opening.permit, opening.name.is_scratch(), opening.name);
    // Refusal 18: "read or scratch closed as public".
    if public && (!permit || scratch) {
        return Err(Refusal::NotToBePublic);
    }
    // "Read: the opening ends." Its segments are the record's, so nothing becomes free.
    if !permit {
        return abandon(catalogue, user, entry);
    }
    if scratch {
        return vanish(catalogue, user, entry);
    }
    let old_place = opening.place;
    let owner = Catalogue::user(user)?;
    if name_is_taken(catalogue, old_place, owner, name, public) {
        return Err(Refusal::NameTaken);
    }
    // "a new file in the lowest free place".
    let lowest_free = || catalogue.records.iter().position(Option::is_none);
    let place = old_place.or_else(lowest_free).ok_or(Refusal::NoFreePlace)?;
    // "Otherwise name, privacy, species, begin, end and segments become the record".
    let file = end_opening(catalogue, user, entry)?.file;
    let replaced = catalogue.records[place].take();
    // "and replaced segments become free."
    for &segment in replaced.iter().flat_map(|old| old.file.segments()) {
        if !file.lists(segment) {
            catalogue.free.insert(segment);
        }
    }
    catalogue.records[place] = Some(Record { name, owner, private: !public, file });
    Ok(0)
}

/// "*Abandon*: the opening ends, segments listed only by it become free, the record is untouched."
pub fn abandon(catalogue: &mut Catalogue, user: u32, entry: u32) -> Answer {
    let opening = end_opening(catalogue, user, entry)?;
    let record = opening.place.and_then(|place| catalogue.records[place].as_ref());
    for &segment in opening.file.segments() {
        if !record.map_or(false, |record| record.file.lists(segment)) {
            catalogue.free.insert(segment);
        }
    }
    Ok(0)
}

/// "New scratch: the file vanishes. Old work renamed to scratch: its record and all segments are freed."
fn vanish(catalogue: &mut Catalogue, user: u32, entry: u32) -> Answer {
    let opening = end_opening(catalogue, user, entry)?;
    catalogue.free.extend(opening.file.segments());
    if let Some(record) = opening.place.and_then(|place| catalogue.records[place].take()) {
        catalogue.free.extend(record.file.segments());
    }
    Ok(0)
}

fn end_opening(catalogue: &mut Catalogue, user: u32, entry: u32) -> Result<Opening, Refusal> {
    let (user, entry) = Catalogue::entry(user, entry)?;
    catalogue.entries[user][entry].take().ok_or(Refusal::EntryNotThere)
}

/// Refusal 16, where the close would write a record: "another record has the same owner and name, or public is
/// asked and another public record has the name."
fn name_is_taken(catalogue: &Catalogue, own: Option<usize>, owner: usize, name: Name, public: bool) -> bool {
    catalogue.records.iter().enumerate().any(|(place, record)| match record {
        Some(record) if own != Some(place) && record.name == name => {
            record.owner == owner || (public && !record.private)
        }
        _ => false,
    })
}
