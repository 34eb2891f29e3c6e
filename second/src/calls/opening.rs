//! Opening new and old files.

use crate::model::catalogue::Catalogue;
use crate::model::opening::Opening;
use crate::model::record::Record;
use crate::rules::name::Name;
use crate::rules::refusal::{Answer, Refusal};
use crate::rules::species::Species;

/// Refusals 1, 2 and 3: an entry that is there and not open.
fn closed_entry(catalogue: &Catalogue, user: u32, entry: u32) -> Result<(usize, usize), Refusal> {
    let (user, entry) = Catalogue::entry(user, entry)?;
    match catalogue.entries[user][entry] {
        Some(_) => Err(Refusal::EntryOpen),
        None => Ok((user, entry)),
    }
}

/// "*New* makes an empty scratch file with work permit." Document 02: "Opening new takes species 6 and refuses 7 and above."
pub fn open_new(catalogue: &mut Catalogue, user: u32, entry: u32, species: u32) -> Answer {
    let (user, entry) = closed_entry(catalogue, user, entry)?;
    let species = Species::from_number(species).ok_or(Refusal::SpeciesUnfit)?;
    catalogue.entries[user][entry] = Some(Opening::of_new(species));
    Ok(0)
}

/// "*Work* and *read* open a permanent file by name." Refused in document 01's order without the number that document 02
/// takes out of it: 3, then 15, 11/13, 14.
pub fn open_old(catalogue: &mut Catalogue, user: u32, entry: u32, name: Name, for_work: bool) -> Answer {
    let (user, entry) = closed_entry(catalogue, user, entry)?;
    if name.is_scratch() {
        return Err(Refusal::OldFileWithoutName);
    }
    let place = look_up(catalogue, user, name)?;
    let record = catalogue.records[place].as_ref().ok_or(Refusal::UnknownName)?;
    // "Work on another's public file: 13." Document 02 leaves it so: "13 stays, for public files."
    if for_work && record.owner != user {
        return Err(Refusal::NoWorkOnAnothers);
    }
    // "Then 14: for work, if any opening of that record exists; for read, if a work opening of it exists."
    let hinders = |opening: &Opening| opening.place == Some(place) && (for_work || opening.permit);
    if catalogue.openings().any(hinders) {
        return Err(Refusal::NotNow);
    }
    let opening = Opening::of_old(place, record, for_work);
    catalogue.entries[user][entry] = Some(opening);
    Ok(0)
}

/// Document 01: "Look-up takes the user's own record of that name first, then a public one." If neither is there,
/// document 02 says: "A file that is another's and private must look absent: 11 in place of 12, for read and for work".
fn look_up(catalogue: &Catalogue, user: usize, name: Name) -> Result<usize, Refusal> {
    let own = place_where(catalogue, |record| record.name == name && record.owner == user);
    let public = || place_where(catalogue, |record| record.name == name && !record.private);
    own.or_else(public).ok_or(Refusal::UnknownName)
}

fn place_where(catalogue: &Catalogue, wanted: impl Fn(&Record) -> bool) -> Option<usize> {
    catalogue.records.iter().position(|record| record.as_ref().map_or(false, &wanted))
}

#[cfg(test)]
mod tests {
    use super::*;
    use crate::model::file::File;

    const PRIVATE: bool = true;
    const PUBLIC: bool = false;

    fn evict() -> Name {
        Name::from_bytes(b"evict")
    }

    /// Files called "evict" by owner and privacy, from place 0 on.
    fn catalogue_with(files: &[(usize, bool)]) -> Catalogue {
        let mut catalogue = Catalogue::empty(1);
        for (place, &(owner, private)) in files.iter().enumerate() {
            let file = File::new(Species::from_number(5).expect("0 to 6"));
            catalogue.records[place] = Some(Record { name: evict(), owner, private, file });
        }
        catalogue
    }

    fn found(user: usize, files: &[(usize, bool)]) -> Result<usize, Refusal> {
        look_up(&catalogue_with(files), user, evict())
    }

    #[test]
    fn anothers_private_files_look_absent() {
        let nobody_has_it = found(0, &[]);
        assert_eq!(nobody_has_it, Err(Refusal::UnknownName));
        assert_eq!(found(0, &[(1, PRIVATE)]), nobody_has_it);
        assert_eq!(found(0, &[(1, PRIVATE), (2, PRIVATE), (7, PRIVATE)]), nobody_has_it);
    }

    #[test]
    fn the_own_file_comes_first_wherever_it_lies() {
        for privacy in [PRIVATE, PUBLIC] {
            assert_eq!(found(0, &[(0, privacy), (1, PRIVATE)]), Ok(0));
            assert_eq!(found(0, &[(1, PRIVATE), (0, privacy)]), Ok(1));
        }
        assert_eq!(found(0, &[(0, PRIVATE), (1, PUBLIC)]), Ok(0));
        assert_eq!(found(0, &[(1, PUBLIC), (0, PRIVATE)]), Ok(1));
    }

    #[test]
    fn a_public_file_is_found_among_others_private_ones() {
        assert_eq!(found(0, &[(1, PUBLIC), (2, PRIVATE)]), Ok(0));
        assert_eq!(found(0, &[(2, PRIVATE), (1, PUBLIC)]), Ok(1));
        assert_eq!(found(0, &[(2, PRIVATE), (1, PUBLIC), (3, PRIVATE)]), Ok(1));
    }
}
