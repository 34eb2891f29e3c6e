//! "segments in all lists are distinct, but for a record and its openings at one stretch": also where stretches are as far
//! apart as positions go.

use dorrivand::{pointer, Refusal, Species, Store};

/// Elements of 32 bits in a segment.
const ELEMENTS: u32 = 64;

/// The last stretch that has a position below 4,294,967,295.
const LAST_STRETCH: u32 = 67_108_863;

/// Where a file's begin, end and first segment number lie in the tables (docs/TABLES.md): of the record at place 1, and of
/// user 0's entry 0.
const RECORD_1: [usize; 3] = [51 + 16, 51 + 17, 51 + 18];
const OPENING: [usize; 3] = [3201 + 4, 3201 + 5, 3201 + 24];

/// The powers of two, near which a count of too few bits would begin again, and the last.
fn stretches() -> impl Iterator<Item = u32> {
    (0..26).map(|power| 1 << power).chain([LAST_STRETCH])
}

/// A store of three segments. User 0's private file has one element, in the lowest free one.
fn store_with(names: &[&str]) -> Store<'static> {
    let mut store = Store::with_segments(3).expect("there are segments");
    for name in names {
        assert_eq!((store.open_new(0, 0, Species::Bits32), store.write(0, 0, pointer::END, 7)), (Ok(()), Ok(())));
        assert_eq!((store.rename(0, 0, name), store.close_private(0, 0)), (Ok(()), Ok(())));
    }
    store
}

/// The file of one element comes to lie at the begin of this stretch, in this segment.
fn put(store: &mut Store, file: [usize; 3], stretch: u32, segment: u32) {
    let begin = stretch * ELEMENTS + 1;
    file.into_iter().zip([begin, begin + 1, segment]).for_each(|(cell, value)| store.tables_mut()[cell] = value);
}

#[test]
fn of_a_record_and_its_work_opening() {
    let mut store = store_with(&["a"]);
    assert_eq!((store.open_work(0, 0, "a"), store.free_segments(0)), (Ok(()), Ok(2)));
    for stretch in stretches() {
        put(&mut store, OPENING, stretch, 0);
        assert_eq!(store.free_segments(0), Err(Refusal::UnsoundTables), "stretch {stretch}");
        put(&mut store, OPENING, stretch, 1);
        assert_eq!(store.free_segments(0), Ok(1), "stretch {stretch}");
    }
    put(&mut store, OPENING, 0, 0);
    assert_eq!(store.free_segments(0), Ok(2));
}

#[test]
fn of_two_records() {
    let mut store = store_with(&["a", "b"]);
    for stretch in stretches().chain([0]) {
        put(&mut store, RECORD_1, stretch, 0);
        assert_eq!(store.free_segments(0), Err(Refusal::UnsoundTables), "stretch {stretch}");
        put(&mut store, RECORD_1, stretch, 2);
        assert_eq!(store.free_segments(0), Ok(1), "stretch {stretch}");
    }
}
