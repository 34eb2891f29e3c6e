//! All that the tables say: the records, the openings and the free segments.

use super::file::File;
use super::opening::Opening;
use super::record::Record;
use super::store::Segment;
use crate::rules::refusal::Refusal;
use crate::rules::sizes::{ENTRIES, PLACES, USERS};
use std::collections::BTreeSet;

#[derive(Clone, PartialEq, Eq, Debug)]
pub struct Catalogue {
    /// The number of segments that the store was given.
    pub segments: usize,
    /// "A segment is free if no catalogue record and no opening lists it."
    pub free: BTreeSet<Segment>,
    pub records: Vec<Option<Record>>,
    pub entries: [[Option<Opening>; ENTRIES]; USERS],
}

/// One open entry with what a call through it may touch or must look at.
pub struct Access<'a> {
    pub opening: &'a mut Opening,
    pub record: Option<&'a Record>,
    pub free: &'a mut BTreeSet<Segment>,
}

impl Catalogue {
    /// No records, nothing open, every segment free.
    pub fn empty(segments: usize) -> Catalogue {
        Catalogue {
            segments,
            free: (0..segments).map(|number| Segment(number as u16)).collect(),
            records: vec![None; PLACES],
            entries: Default::default(),
        }
    }

    /// Refusal 1: "user above 7".
    pub fn user(user: u32) -> Result<usize, Refusal> {
        match usize::try_from(user) {
            Ok(user) if user < USERS => Ok(user),
            _ => Err(Refusal::UserAboveSeven),
        }
    }

    /// Refusals 1 and 2 where the entry need not be open.
    pub fn entry(user: u32, entry: u32) -> Result<(usize, usize), Refusal> {
        let user = Catalogue::user(user)?;
        match usize::try_from(entry) {
            Ok(entry) if entry < ENTRIES => Ok((user, entry)),
            _ => Err(Refusal::EntryNotThere),
        }
    }

    /// Refusals 1 and 2 where the entry must be open.
    pub fn opening(&self, user: u32, entry: u32) -> Result<&Opening, Refusal> {
        let (user, entry) = Catalogue::entry(user, entry)?;
        self.entries[user][entry].as_ref().ok_or(Refusal::EntryNotThere)
    }

    pub fn opening_mut(&mut self, user: u32, entry: u32) -> Result<&mut Opening, Refusal> {
        let (user, entry) = Catalogue::entry(user, entry)?;
        self.entries[user][entry].as_mut().ok_or(Refusal::EntryNotThere)
    }

    pub fn access(&mut self, user: u32, entry: u32) -> Result<Access<'_>, Refusal> {
        let (user, entry) = Catalogue::entry(user, entry)?;
        let opening = self.entries[user][entry].as_mut().ok_or(Refusal::EntryNotThere)?;
        let record = match opening.place {
            Some(place) => self.records[place].as_ref(),
            None => None,
        };
        Ok(Access { opening, record, free: &mut self.free })
    }

    pub fn openings(&self) -> impl Iterator<Item = &Opening> {
        self.entries.iter().flatten().flatten()
    }

    /// Every file that is listed, of records and of openings.
    pub fn files_mut(&mut self) -> impl Iterator<Item = &mut File> {
        let of_records = self.records.iter_mut().flatten().map(|record| &mut record.file);
        let of_openings = self.entries.iter_mut().flatten().flatten().map(|opening| &mut opening.file);
        of_records.chain(of_openings)
    }
}

impl Access<'_> {
    /// A work opening of an old file "shares the record's segments until it changes one".
    pub fn is_shared(&self, segment: Segment) -> bool {
        self.record.map_or(false, |record| record.file.lists(segment))
    }

    /// "A taken segment is always the lowest-numbered free one."
    pub fn take_segment(&mut self) -> Result<Segment, Refusal> {
        let lowest = self.free.iter().next().copied().ok_or(Refusal::NoRoom)?;
        self.free.remove(&lowest);
        Ok(lowest)
    }

    /// The opening no longer lists this segment: it is free unless the record still does.
    pub fn let_go(&mut self, segment: Segment) {
        if !self.is_shared(segment) {
            self.free.insert(segment);
        }
    }
}
