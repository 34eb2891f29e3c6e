//! A store whose files lie apart, for tests of tidying.

use dorrivand::{pointer, Refusal, Species, Store};

pub const SEGMENT_CELLS: usize = 64;

/// Of the scattered store.
pub const SEGMENTS: usize = 7;

/// Records in the tables (docs/TABLES.md): where they start, how long each is, and where its segment numbers begin.
const RECORDS_START: usize = 1;
const RECORD_CELLS: usize = 50;
const LIST_FIELD: usize = 18;

/// The tables' cell that has the first segment number of the record at this place.
pub fn first_segment_cell(place: usize) -> usize {
    RECORDS_START + place * RECORD_CELLS + LIST_FIELD
}

/// The answer where so many segments move.
pub fn copied(segments: usize) -> Result<u32, Refusal> {
    Ok((segments * SEGMENT_CELLS) as u32)
}

/// Elements that fill a segment, none of them another seed's.
pub fn a_segment_of(seed: u32) -> Vec<u32> {
    (1..=SEGMENT_CELLS as u32).map(|n| 1000 * seed + n).collect()
}

/// User 0 closes a new private file that fills one segment.
pub fn make(store: &mut Store, name: &str, seed: u32) {
    assert_eq!(store.open_new(0, 0, Species::Bits32), Ok(()));
    assert_eq!(store.write_run(0, 0, pointer::END, &a_segment_of(seed)), (&[][..], None));
    assert_eq!((store.rename(0, 0, name), store.close_private(0, 0)), (Ok(()), Ok(())));
}

pub fn remove(store: &mut Store, user: u32, name: &str) {
    assert_eq!((store.open_work(user, 0, name), store.rename(user, 0, "")), (Ok(()), Ok(())));
    assert_eq!(store.close_private(user, 0), Ok(()));
}

/// Files "b", "d" and "e" in segments 1, 3 and 4 of seven, at places 1, 3 and 4. Segments 0 and 2 were other files'.
pub fn scattered() -> Store<'static> {
    let mut store = Store::with_segments(SEGMENTS).expect("there are segments");
    for (name, seed) in [("a", 1), ("b", 2), ("c", 3), ("d", 4), ("e", 5)] {
        make(&mut store, name, seed);
    }
    remove(&mut store, 0, "a");
    remove(&mut store, 0, "c");
    store
}

pub fn all_cells(store: &Store) -> (Vec<u32>, Vec<u32>) {
    (store.cells().to_vec(), store.tables().to_vec())
}

/// Makes the call, which must answer this and change no cell.
pub fn assert_changes_nothing(store: &mut Store, answer: Result<u32, Refusal>) {
    let before = all_cells(store);
    assert_eq!(store.tidy(), answer);
    assert!(all_cells(store) == before, "{answer:?} and a cell changed");
}
