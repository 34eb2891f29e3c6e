//! "Sound tables": document 01's sentence, test by test.
use super::distinct::distinct;
use super::layout::{self, opening, record, Opening, Record, PLACES, TABLES};
use super::placing::{held, GREATEST_SPECIES, MOST_HELD, SEGMENT_CELLS};

pub const MOST_SEGMENTS: u32 = 1024;

/// Whether the cells are sound tables beside a store of so many cells.
#[inline(never)]
pub fn sound(tables: &[u32], store_cells: usize) -> bool {
    tables.len() == TABLES && cells_sound(tables, store_cells)
}

/// The same of cells that are as long as tables, or end where the openings begin, so that nothing is open.
#[inline(always)]
pub fn cells_sound(tables: &[u32], store_cells: usize) -> bool {
    (1..=MOST_SEGMENTS).contains(&tables[0])
        && SEGMENT_CELLS * tables[0] as usize <= store_cells
        && layout::records(tables).all(|cells| record_sound(cells, tables[0]))
        && names_sound(tables)
        && layout::openings(tables).enumerate().all(|(entry, cells)| opening_sound(tables, entry, cells))
        && distinct(tables)
}

/// Without an early exit, so that the compiler makes it wide.
fn zero(cells: &[u32]) -> bool {
    cells.iter().fold(0, |bits, &cell| bits | cell) == 0
}

/// An end above the greatest is none that a cell can hold.
fn extent_sound(species: u32, begin: u32, end: u32) -> bool {
    species <= GREATEST_SPECIES && 1 <= begin && begin <= end && held(species, begin, end) <= MOST_HELD
}

/// "names not empty, symbols 0 to 35 and then only 63"
fn name_sound(name: &[u32]) -> bool {
    let symbols = name.iter().take_while(|&&symbol| symbol <= 35).count();
    symbols > 0 && name[symbols..].iter().all(|&symbol| symbol == 63)
}

/// The held places are below the number of segments, the others below 1. Without an early exit too.
fn list_sound(list: &[u32], held: u32, segments: u32) -> bool {
    (0..MOST_HELD)
        .zip(list)
        .fold(true, |sound, (place, &segment)| sound & (segment < if place < held { segments } else { 1 }))
}

fn record_sound(cells: &Record, segments: u32) -> bool {
    if cells[record::USED] == 0 {
        return zero(cells);
    }
    let (species, begin, end) = (cells[record::SPECIES], cells[record::BEGIN], cells[record::END]);
    cells[record::USED] == 1
        && name_sound(&cells[record::NAME])
        && cells[record::OWNER] <= 7
        && cells[record::PRIVATE] <= 1
        && extent_sound(species, begin, end)
        && list_sound(&cells[record::SEGMENTS], held(species, begin, end), segments)
}

/// Twelve symbols of six bits as one number.
fn key(name: &[u32]) -> u128 {
    let half = |symbols: &[u32]| symbols.iter().fold(0, |key: u64, &symbol| key << 6 | u64::from(symbol));
    u128::from(half(&name[..6])) << 64 | u128::from(half(&name[6..]))
}

/// "No two records of one owner have one name; no two public records have one name."
fn names_sound(tables: &[u32]) -> bool {
    let mut seen = [(0, 0, 0); PLACES];
    let mut used = 0;
    for cells in layout::records(tables).filter(|cells| cells[record::USED] == 1) {
        let (name, owner, private) = (key(&cells[record::NAME]), cells[record::OWNER], cells[record::PRIVATE]);
        let clashes =
            |other: &(u128, u32, u32)| other.0 == name && (other.1 == owner || (other.2 == 0 && private == 0));
        if seen[..used].iter().any(clashes) {
            return false;
        }
        seen[used] = (name, owner, private);
        used += 1;
    }
    true
}

/// Pointers stand at most at the greatest end likewise, and an own one that is not there is 0.
fn opening_sound(tables: &[u32], entry: usize, cells: &Opening) -> bool {
    if cells[opening::OPEN] == 0 {
        return zero(cells);
    }
    let (species, begin, end) = (cells[opening::SPECIES], cells[opening::BEGIN], cells[opening::END]);
    let name = &cells[opening::NAME];
    cells[opening::OPEN] == 1
        && cells[opening::PERMIT] <= 1
        && (name_sound(name) || name.iter().all(|&symbol| symbol == 63))
        && extent_sound(species, begin, end)
        && 1 <= cells[opening::WORK]
        && list_sound(&cells[opening::SEGMENTS], held(species, begin, end), tables[0])
        && link_sound(tables, entry, cells)
}

/// "each opening names one existing record, or none and then has the work permit"
fn link_sound(tables: &[u32], entry: usize, cells: &Opening) -> bool {
    let place = cells[opening::PLACE] as usize;
    if place == 0 {
        return cells[opening::PERMIT] == 1;
    }
    if place > PLACES {
        return false;
    }
    let filed = layout::record(tables, place - 1);
    let own = filed[record::OWNER] as usize == entry / 4;
    if filed[record::USED] != 1 {
        return false;
    }
    if cells[opening::PERMIT] == 0 {
        return (filed[record::PRIVATE] == 0 || own) && shows(cells, filed);
    }
    own && filed[record::SPECIES] == cells[opening::SPECIES]
        && layout::openings(tables).filter(|other| other[opening::PLACE] as usize == place).count() == 1
}

/// "the opening has that record's name, species, begin, end and segments"
fn shows(cells: &Opening, filed: &Record) -> bool {
    cells[opening::NAME] == filed[record::NAME]
        && cells[opening::SPECIES] == filed[record::SPECIES]
        && cells[opening::BEGIN] == filed[record::BEGIN]
        && cells[opening::END] == filed[record::END]
        && cells[opening::SEGMENTS] == filed[record::SEGMENTS]
}
