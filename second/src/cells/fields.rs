//! Where the fields lie among a record's fifty numbers, an opening's fifty-six, and the tables' cells.

use crate::rules::sizes::{ENTRIES, MOST_HELD, NAME_SYMBOLS, PLACES, USERS};
use std::ops::Range;

/// "cell 0: number of segments"
pub const SEGMENTS_CELL: usize = 0;

/// "Their one length is 4,993 cells."
pub const TABLES_LENGTH: usize = 4_993;

/// In the cell of an own pointer: "0: no such pointer".
pub const NO_SUCH_POINTER: u32 = 0;

/// A record: "the fields of the image's record in the image's order, one a cell."
pub mod record {
    use super::{Range, MOST_HELD, NAME_SYMBOLS};
    pub const USED: usize = 0;
    pub const NAME: Range<usize> = 1..1 + NAME_SYMBOLS;
    pub const OWNER: usize = 13;
    pub const PRIVATE: usize = 14;
    pub const SPECIES: usize = 15;
    pub const BEGIN: usize = 16;
    pub const END: usize = 17;
    pub const LIST: Range<usize> = 18..18 + MOST_HELD;
    pub const COUNT: usize = LIST.end;
}

/// An opening.
pub mod opening {
    use super::{Range, MOST_HELD, NAME_SYMBOLS};
    pub const OPEN: usize = 0;
    /// "record's place + 1, 0: none"
    pub const PLACE: usize = 1;
    pub const PERMIT: usize = 2;
    pub const SPECIES: usize = 3;
    pub const BEGIN: usize = 4;
    pub const END: usize = 5;
    pub const WORK: usize = 6;
    pub const OWN: Range<usize> = 7..12;
    pub const NAME: Range<usize> = 12..12 + NAME_SYMBOLS;
    pub const LIST: Range<usize> = 24..24 + MOST_HELD;
    pub const COUNT: usize = LIST.end;
}

/// "record at place p starts at 1 + 50 p"
pub fn record_cells(place: usize) -> Range<usize> {
    let start = 1 + record::COUNT * place;
    start..start + record::COUNT
}

/// "opening i = 4 user + entry at 3201 + 56 i"
pub fn opening_cells(user: usize, entry: usize) -> Range<usize> {
    let start = record_cells(PLACES).start + opening::COUNT * (ENTRIES * user + entry);
    start..start + opening::COUNT
}

/// All entries, user by user.
pub fn all_entries() -> impl Iterator<Item = (usize, usize)> {
    (0..USERS).flat_map(|user| (0..ENTRIES).map(move |entry| (user, entry)))
}

#[cfg(test)]
mod tests {
    use super::*;

    #[test]
    fn the_cells_fill_the_one_length() {
        assert_eq!(record_cells(PLACES).start, 3201);
        assert_eq!(opening_cells(USERS, 0).start, TABLES_LENGTH);
    }
}
