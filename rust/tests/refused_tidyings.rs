//! "Tidying", through the door: when it is refused.

mod common;

use common::scattered::*;
use dorrivand::{pointer, Refusal, Species, Store};

/// The tables' cell that has the number of segments.
const SEGMENTS_CELL: usize = 0;

/// An opening of any kind hinders a tidying, and does so until it has ended.
fn assert_hindered_by(open: impl FnOnce(&mut Store) -> Result<(), Refusal>, (user, entry): (u32, u32)) {
    let mut store = scattered();
    assert_eq!(open(&mut store), Ok(()));
    assert_changes_nothing(&mut store, Err(Refusal::NotNow));
    assert_eq!((store.abandon(user, entry), store.tidy()), (Ok(()), copied(2)));
}

#[test]
fn not_while_anything_is_open() {
    assert_hindered_by(|store| store.open_read(0, 2, "b"), (0, 2));
    assert_hindered_by(|store| store.open_work(0, 0, "e"), (0, 0));
    assert_hindered_by(|store| store.open_new(7, 3, Species::Bits1), (7, 3));
}

/// The operator waits also where nothing would move.
#[test]
fn not_while_another_reads_a_public_file() {
    let mut store = scattered();
    assert_eq!((store.open_work(0, 0, "b"), store.close_public(0, 0)), (Ok(()), Ok(())));
    assert_eq!((store.tidy(), store.open_read(5, 1, "b")), (copied(2), Ok(())));
    assert_changes_nothing(&mut store, Err(Refusal::NotNow));
    assert_eq!(store.next(5, 1, pointer::WORK), Ok(a_segment_of(2)[0]));
}

/// Over so many cells of the scattered store, with its tables changed.
fn assert_unsound(length: usize, change: impl FnOnce(&mut Vec<u32>)) {
    let (mut cells, mut tables) = scattered().into_cells();
    cells.truncate(length);
    change(&mut tables);
    assert_changes_nothing(&mut Store::from_cells(cells, tables), Err(Refusal::UnsoundTables));
}

#[test]
fn not_with_unsound_tables() {
    let whole = SEGMENTS * SEGMENT_CELLS;
    assert_unsound(whole - 1, |_| ());
    assert_unsound(0, |_| ());
    assert_unsound(whole, |tables| tables.push(0));
    assert_unsound(whole, |tables| tables.truncate(tables.len() - 1));
    assert_unsound(whole, |tables| tables[SEGMENTS_CELL] += 1);
    // "b" and "d" in one segment.
    assert_unsound(whole, |tables| tables[first_segment_cell(3)] = 1);
}

/// 20 is judged before 14.
#[test]
fn unsound_tables_with_a_file_open() {
    let mut store = scattered();
    assert_eq!(store.open_read(0, 0, "b"), Ok(()));
    store.tables_mut()[SEGMENTS_CELL] += 1;
    assert_changes_nothing(&mut store, Err(Refusal::UnsoundTables));
}
