//! What the numbers of one record or one opening say by themselves, and whether they may say it.

use super::fields::{opening as of_opening, record as of_record, NO_SUCH_POINTER};
use crate::model::store::Segment;
use crate::rules::name::Name;
use crate::rules::sizes::{GREATEST_END, MOST_HELD, OWN_POINTERS, PLACES, USERS};
use crate::rules::species::Species;
use std::ops::RangeInclusive;

/// The values that begins, ends and pointers may have.
const VALUES: RangeInclusive<u32> = 1..=GREATEST_END;

/// Numbers that are not sound.
#[derive(Clone, Copy, PartialEq, Eq, Debug)]
pub struct Unsound;

#[derive(Clone, PartialEq, Eq, Debug)]
pub struct FileOutline {
    pub species: Species,
    pub begin: u32,
    pub end: u32,
    pub segments: Vec<Segment>,
}

pub struct RecordOutline {
    pub name: Name,
    pub owner: usize,
    pub private: bool,
    pub file: FileOutline,
}

pub struct OpeningOutline {
    pub user: usize,
    pub place: Option<usize>,
    pub permit: bool,
    pub name: Name,
    pub file: FileOutline,
    pub work: u32,
    pub own: [Option<u32>; OWN_POINTERS],
}

impl FileOutline {
    /// "species 0 to 5; 1 <= begin <= end; at most 32 segments held; segment numbers in range", and list places
    /// after the held ones are zero. Document 02 adds species 6, which "images may hold", and tables too. `segments` is how
    /// many the store was given.
    fn judged(species: u32, begin: u32, end: u32, list: &[u32], segments: usize) -> Result<FileOutline, Unsound> {
        let species = Species::from_number(species).ok_or(Unsound)?;
        if !VALUES.contains(&begin) || !VALUES.contains(&end) || begin > end {
            return Err(Unsound);
        }
        let held = species.held_stretches(begin, end).len();
        if held > MOST_HELD || list[held..].iter().any(|&number| number != 0) {
            return Err(Unsound);
        }
        if list[..held].iter().any(|&number| number as usize >= segments) {
            return Err(Unsound);
        }
        let segments = list[..held].iter().map(|&number| Segment(number as u16)).collect();
        Ok(FileOutline { species, begin, end, segments })
    }

    /// The held segments, each with its stretch.
    pub fn stretches(&self) -> impl Iterator<Item = (u32, Segment)> + '_ {
        self.species.held_stretches(self.begin, self.end).zip(self.segments.iter().copied())
    }

    pub fn lists_at(&self, stretch: u32, segment: Segment) -> bool {
        self.stretches().any(|held| held == (stretch, segment))
    }
}

fn flag(number: u32) -> Result<bool, Unsound> {
    match number {
        0 => Ok(false),
        1 => Ok(true),
        _ => Err(Unsound),
    }
}

/// A record's fifty numbers; nothing for an unused one, which "is all zero".
pub fn judged_record(numbers: &[u32], segments: usize) -> Result<Option<RecordOutline>, Unsound> {
    if !flag(numbers[of_record::USED])? {
        return all_zero(numbers).map(|()| None);
    }
    // "names not empty, symbols 0 to 35 and then only 63".
    let name = Name::from_symbols(&numbers[of_record::NAME]).ok_or(Unsound)?;
    let owner = numbers[of_record::OWNER] as usize;
    if name.is_scratch() || owner >= USERS {
        return Err(Unsound);
    }
    let private = flag(numbers[of_record::PRIVATE])?;
    let file = FileOutline::judged(
        numbers[of_record::SPECIES],
        numbers[of_record::BEGIN],
        numbers[of_record::END],
        &numbers[of_record::LIST],
        segments,
    )?;
    Ok(Some(RecordOutline { name, owner, private, file }))
}

/// An opening's fifty-six numbers; nothing for a closed entry, which is all zero.
pub fn judged_opening(user: usize, numbers: &[u32], segments: usize) -> Result<Option<OpeningOutline>, Unsound> {
    if !flag(numbers[of_opening::OPEN])? {
        return all_zero(numbers).map(|()| None);
    }
    // "all places ... are in range"; the cell has the place plus one, and 0 says that there is none.
    let place = (numbers[of_opening::PLACE] as usize).checked_sub(1);
    if place.map_or(false, |place| place >= PLACES) {
        return Err(Unsound);
    }
    let permit = flag(numbers[of_opening::PERMIT])?;
    // "an opening's name is as a record's or all 63".
    let name = Name::from_symbols(&numbers[of_opening::NAME]).ok_or(Unsound)?;
    // "its species, begin, end and number of held segments are as for records".
    let file = FileOutline::judged(
        numbers[of_opening::SPECIES],
        numbers[of_opening::BEGIN],
        numbers[of_opening::END],
        &numbers[of_opening::LIST],
        segments,
    )?;
    // "the values of pointers 2 to 7, where they exist, are 1 to the greatest end value"; pointer 2 always exists.
    let work = numbers[of_opening::WORK];
    if !VALUES.contains(&work) {
        return Err(Unsound);
    }
    let mut own = [None; OWN_POINTERS];
    for (pointer, &value) in own.iter_mut().zip(&numbers[of_opening::OWN]) {
        *pointer = match value {
            NO_SUCH_POINTER => None,
            value if VALUES.contains(&value) => Some(value),
            _ => return Err(Unsound),
        };
    }
    Ok(Some(OpeningOutline { user, place, permit, name, file, work, own }))
}

fn all_zero(numbers: &[u32]) -> Result<(), Unsound> {
    if numbers.iter().all(|&number| number == 0) {
        Ok(())
    } else {
        Err(Unsound)
    }
}
