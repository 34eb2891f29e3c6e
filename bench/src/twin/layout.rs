//! Where the fields of records and openings lie in the tables: docs/TABLES.md.

pub const TABLES: usize = 4993;
pub const PLACES: usize = 64;
const RECORDS: usize = 1;
pub const OPENINGS: usize = 3201;

/// The cells of a record.
pub mod record {
    use std::ops::Range;
    pub const USED: usize = 0;
    pub const NAME: Range<usize> = 1..13;
    pub const OWNER: usize = 13;
    pub const PRIVATE: usize = 14;
    pub const SPECIES: usize = 15;
    pub const BEGIN: usize = 16;
    pub const END: usize = 17;
    pub const SEGMENTS: Range<usize> = 18..50;
    pub const CELLS: usize = 50;
}

/// The cells of an opening.
pub mod opening {
    use std::ops::Range;
    pub const OPEN: usize = 0;
    pub const PLACE: usize = 1;
    pub const PERMIT: usize = 2;
    pub const SPECIES: usize = 3;
    pub const POINTERS: usize = 4;
    pub const BEGIN: usize = 4;
    pub const END: usize = 5;
    pub const WORK: usize = 6;
    pub const WORK_AND_OWN: Range<usize> = 6..12;
    pub const NAME: Range<usize> = 12..24;
    pub const SEGMENTS: Range<usize> = 24..56;
    pub const CELLS: usize = 56;
}

pub type Record = [u32; record::CELLS];
pub type Opening = [u32; opening::CELLS];

pub fn records(tables: &[u32]) -> impl Iterator<Item = &Record> {
    tables[RECORDS..OPENINGS].chunks_exact(record::CELLS).map(|cells| cells.try_into().unwrap())
}

/// None where the cells end before them.
pub fn openings(tables: &[u32]) -> impl Iterator<Item = &Opening> {
    tables[OPENINGS..].chunks_exact(opening::CELLS).map(|cells| cells.try_into().unwrap())
}

pub fn records_mut(tables: &mut [u32]) -> impl Iterator<Item = &mut Record> {
    tables[RECORDS..OPENINGS].chunks_exact_mut(record::CELLS).map(|cells| cells.try_into().unwrap())
}

pub fn record(tables: &[u32], place: usize) -> &Record {
    let from = RECORDS + record::CELLS * place;
    tables[from..from + record::CELLS].try_into().unwrap()
}

pub fn opening(tables: &[u32], entry: usize) -> &Opening {
    let from = OPENINGS + opening::CELLS * entry;
    tables[from..from + opening::CELLS].try_into().unwrap()
}

pub fn opening_mut(tables: &mut [u32], entry: usize) -> &mut Opening {
    let from = OPENINGS + opening::CELLS * entry;
    (&mut tables[from..from + opening::CELLS]).try_into().unwrap()
}
