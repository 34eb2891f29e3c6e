//! An opening of a file, and its pointers.

use super::file::File;
use super::record::Record;
use crate::rules::element::Kind;
use crate::rules::name::Name;
use crate::rules::refusal::Refusal;
use crate::rules::sizes::{FIRST_OWN, OWN_POINTERS};
use crate::rules::species::Species;

pub const BEGIN: u32 = 0;
pub const END: u32 = 1;
pub const WORK: u32 = 2;

#[derive(Clone, PartialEq, Eq, Debug)]
pub struct Opening {
    /// The place of the old file's record; a new file has none.
    pub place: Option<usize>,
    pub permit: bool,
    pub name: Name,
    pub file: File,
    pub work: u32,
    pub own: [Option<u32>; OWN_POINTERS],
}

impl Opening {
    /// "*New* makes an empty scratch file with work permit."
    pub fn of_new(species: Species) -> Opening {
        let file = File::new(species);
        let work = file.begin();
        Opening { place: None, permit: true, name: Name::SCRATCH, file, work, own: [None; OWN_POINTERS] }
    }

    /// "*Work* and *read* open a permanent file by name."
    pub fn of_old(place: usize, record: &Record, permit: bool) -> Opening {
        Opening {
            place: Some(place),
            permit,
            name: record.name,
            file: record.file.clone(),
            work: work_pointer_of_old(&record.file, permit),
            own: [None; OWN_POINTERS],
        }
    }

    /// Refusal 19 of an access: the signed calls "refuse species 0 to 5 with 19, and the plain ones refuse species 6 with
    /// 19, after 2 and before 4; so do P1's runs, at length 0 too."
    pub fn check_kind(&self, kind: Kind) -> Result<(), Refusal> {
        if self.file.species().kind() == kind {
            Ok(())
        } else {
            Err(Refusal::SpeciesUnfit)
        }
    }

    /// "Pointer 0 is the begin, 1 the end, 2 the work pointer; 3 to 7 are own pointers."
    pub fn pointer(&self, pointer: u32) -> Option<u32> {
        match pointer {
            BEGIN => Some(self.file.begin()),
            END => Some(self.file.end()),
            WORK => Some(self.work),
            _ => self.own[own_place(pointer)?],
        }
    }

    /// Moves the work pointer or an own one; the begin and the end move with the file alone.
    pub fn move_pointer(&mut self, pointer: u32, value: u32) {
        if pointer == WORK {
            self.work = value;
        } else if let Some(place) = own_place(pointer) {
            self.own[place] = Some(value);
        }
    }
}

/// "From now on a work opening of an old file puts pointer 2 at the end value; new and read openings stay as in 01",
/// which says: "On opening, the work pointer stands at the begin value."
fn work_pointer_of_old(file: &File, permit: bool) -> u32 {
    if permit {
        file.end()
    } else {
        file.begin()
    }
}

/// Where an own pointer of this name is kept; nothing for other names.
pub fn own_place(pointer: u32) -> Option<usize> {
    let place = usize::try_from(pointer).ok()?.checked_sub(FIRST_OWN)?;
    if place < OWN_POINTERS {
        Some(place)
    } else {
        None
    }
}
