//! Tables to measure on and to begin histories from.
use crate::calls::At;
use crate::random::Random;
use crate::twin::layout::{opening, opening_mut, OPENINGS};
use crate::twin::{GREATEST_END, GREATEST_SPECIES, TABLES};

pub const CELLS: usize = 65_536;
pub const SEGMENTS: u32 = 1024;
/// E of each species.
pub const ELEMENTS: [u32; 1 + GREATEST_SPECIES as usize] = [2048, 1024, 512, 256, 128, 64, 128];

/// A file: its species, its begin and end, and the first of its segments, which follow each other.
#[derive(Clone, Copy)]
pub struct Content {
    pub species: u32,
    pub begin: u32,
    pub end: u32,
    pub first: u32,
}

impl Content {
    /// How many segments the file holds.
    pub fn held(self) -> u32 {
        if self.begin == self.end {
            return 0;
        }
        (self.end - 2) / ELEMENTS[self.species as usize] + 1 - self.first_stretch()
    }

    /// The stretch that the begin lies in.
    pub fn first_stretch(self) -> u32 {
        (self.begin - 1) / ELEMENTS[self.species as usize]
    }

    pub fn segments(self) -> impl Iterator<Item = u32> {
        self.first..self.first + self.held()
    }
}

/// Twelve symbols.
type Name = [u32; 12];

/// Names of two symbols from 0 to 7.
pub fn short(place: usize) -> Name {
    let mut name = [63; 12];
    name[0] = (place / 8) as u32;
    name[1] = (place % 8) as u32;
    name
}

/// Names alike in ten symbols.
fn alike(place: usize) -> Name {
    let mut name = [7; 12];
    name[10] = (place / 8) as u32;
    name[11] = (place % 8) as u32;
    name
}

/// Eight names, each once for every owner.
fn shared(place: usize) -> Name {
    short(place / 8)
}

/// No records and no openings.
pub fn empty(segments: u32) -> Vec<u32> {
    let mut tables = vec![0; TABLES];
    tables[0] = segments;
    tables
}

/// A private record at a place.
pub fn file(tables: &mut [u32], place: usize, name: Name, owner: u32, content: Content) {
    let cells = &mut tables[1 + 50 * place..51 + 50 * place];
    cells[0] = 1;
    cells[1..13].copy_from_slice(&name);
    cells[13..18].copy_from_slice(&[owner, 1, content.species, content.begin, content.end]);
    for (cell, segment) in cells[18..].iter_mut().zip(content.segments()) {
        *cell = segment;
    }
}

/// A new file that an entry has open, its work pointer at the begin.
pub fn open_new(tables: &mut [u32], entry: usize, content: Content) {
    let cells = &mut tables[3201 + 56 * entry..3257 + 56 * entry];
    cells[..4].copy_from_slice(&[1, 0, 1, content.species]);
    cells[4..7].copy_from_slice(&[content.begin, content.end, content.begin]);
    cells[12..24].fill(63);
    for (cell, segment) in cells[24..].iter_mut().zip(content.segments()) {
        *cell = segment;
    }
}

/// A read opening of the record at a place.
pub fn reading(tables: &mut [u32], entry: usize, place: usize) {
    let filed: Vec<u32> = tables[1 + 50 * place..51 + 50 * place].to_vec();
    let cells = &mut tables[3201 + 56 * entry..3257 + 56 * entry];
    cells[..4].copy_from_slice(&[1, place as u32 + 1, 0, filed[15]]);
    cells[4..7].copy_from_slice(&[filed[16], filed[17], filed[16]]);
    cells[12..24].copy_from_slice(&filed[1..13]);
    cells[24..].copy_from_slice(&filed[18..]);
}

/// The species of the file that an entry has open. The tables may be damaged.
pub fn species_at(tables: &[u32], (user, entry): At) -> Option<u32> {
    let row = tables.get(OPENINGS + opening::CELLS * (4 * user as usize + entry as usize)..)?;
    let is_open = row.get(opening::OPEN) == Some(&1);
    row.get(opening::SPECIES).copied().filter(|&species| is_open && species <= GREATEST_SPECIES)
}

/// So many records of species 5 that hold so many segments each, the one at place p of user p mod 8, from the first segment on.
pub fn filled(records: usize, name: fn(usize) -> Name, held: u32) -> Vec<u32> {
    let mut tables = empty(SEGMENTS);
    for place in 0..records {
        let content = Content { species: 5, begin: 1, end: 1 + 64 * held, first: held * place as u32 };
        file(&mut tables, place, name(place), (place % 8) as u32, content);
    }
    tables
}

/// The record at a place lists these segments, in place of the first ones that it had.
pub fn relist(tables: &mut [u32], place: usize, segments: impl IntoIterator<Item = u32>) {
    for (cell, segment) in tables[19 + 50 * place..51 + 50 * place].iter_mut().zip(segments) {
        *cell = segment;
    }
}

/// So many records that hold so many segments each, their numbers as told: from a place and a stretch.
fn dealt(records: usize, held: usize, number: impl Fn(usize, usize) -> u32) -> Vec<u32> {
    let mut tables = filled(records, short, held as u32);
    for place in 0..records {
        relist(&mut tables, place, (0..held).map(|stretch| number(place, stretch)));
    }
    tables
}

/// The same, and chance deals the numbers: as told of 0, of 1 and so on, one for each segment that is listed.
pub fn shuffled(records: usize, held: usize, number: impl Fn(u32) -> u32) -> Vec<u32> {
    let order = Random(7).shuffled((records * held) as u32);
    dealt(records, held, |place, stretch| number(order[held * place + stretch]))
}

/// Every entry has a record of its user's open, with the work permit or not, and all as it is filed.
fn all_open(permit: u32, mut tables: Vec<u32>) -> Vec<u32> {
    for entry in 0..32 {
        reading(&mut tables, entry, entry / 4 + 8 * (entry % 4));
        opening_mut(&mut tables, entry)[opening::PERMIT] = permit;
    }
    tables
}

/// Tables that the decisions are measured on, each file's segments together.
pub fn compact() -> Vec<(&'static str, Vec<u32>)> {
    vec![
        ("empty tables", empty(SEGMENTS)),
        ("20 records, 320 segments listed", filled(20, short, 16)),
        ("64 records, 1,024 segments listed, 32 openings", all_open(0, filled(64, short, 16))),
        ("64 records, 1,024 segments listed, 32 work openings", all_open(1, filled(64, short, 16))),
        ("64 records, 1,008 segments listed, no opening", {
            let mut tables = filled(63, short, 16);
            file(&mut tables, 63, short(63), 7, Content { species: 5, begin: 1, end: 1, first: 0 });
            tables
        }),
        ("64 records, 960 segments listed, no opening", filled(64, short, 15)),
        ("64 records, 960 segments listed, 8 names with 8 owners each", filled(64, shared, 15)),
        ("64 names alike in ten symbols", all_open(0, filled(64, alike, 16))),
    ]
}

/// The same, and each file's segments lie apart.
pub fn scattered() -> Vec<(&'static str, Vec<u32>)> {
    vec![
        ("64 records, 960 segments listed, at random", shuffled(64, 15, |number| number)),
        (
            "64 records, 960 segments listed, each in the record before the last one's",
            dealt(64, 15, |place, stretch| (64 * stretch + 63 - place) as u32),
        ),
    ]
}

/// A file of each species, which its owner reads. Its begin and end are told from E, so that it holds three segments.
pub fn each_species(ends: fn(u32) -> (u32, u32)) -> Vec<u32> {
    let mut tables = empty(SEGMENTS);
    for (place, per_segment) in ELEMENTS.into_iter().enumerate() {
        let (number, (begin, end)) = (place as u32, ends(per_segment));
        file(&mut tables, place, short(place), number, Content { species: number, begin, end, first: 3 * number });
        reading(&mut tables, 4 * place, place);
    }
    tables
}

/// From the last position of a stretch to the first of the one after the next.
pub fn early(per_segment: u32) -> (u32, u32) {
    (per_segment, 2 * per_segment + 2)
}

/// Up to the end of positions.
pub fn late(per_segment: u32) -> (u32, u32) {
    (GREATEST_END - 2 * per_segment, GREATEST_END)
}
