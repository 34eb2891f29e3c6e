//! "Tidying", through the door: what moves where, that files read the same, and what becomes of images.

mod common;
#[path = "common/image.rs"]
mod image;
#[path = "common/plain.rs"]
mod plain;

use common::scattered::*;
use dorrivand::{pointer, Refusal, Species, Store};
use image::{heading, image_of};
use plain::PLAIN;
use std::ops::Range;

/// Of the scattered store's segments.
const LISTED: usize = 3;

/// Nothing else is open there when somebody reads.
const READING_ENTRY: u32 = 3;

/// The user who has temperatures, after those with a plain species each.
const COLD: u32 = PLAIN.len() as u32;

fn cells_of(segment: usize) -> Range<usize> {
    segment * SEGMENT_CELLS..(segment + 1) * SEGMENT_CELLS
}

/// What a user reads of a file, from its begin to its end.
fn elements(store: &mut Store, user: u32, name: &str) -> Vec<u32> {
    assert_eq!(store.open_read(user, READING_ENTRY, name), Ok(()));
    let read = store.elements(user, READING_ENTRY, pointer::WORK).collect::<Result<Vec<u32>, _>>();
    assert_eq!(store.close_private(user, READING_ENTRY), Ok(()));
    read.expect("a next is refused at the end alone")
}

/// The same of a file of temperatures.
fn degrees(store: &mut Store, user: u32, name: &str) -> Vec<i32> {
    assert_eq!(store.open_read(user, READING_ENTRY, name), Ok(()));
    let count = store.end(user, READING_ENTRY).expect("the entry is open") - 1;
    let read = (0..count).map(|_| store.next_signed(user, READING_ENTRY, pointer::WORK));
    let read = read.collect::<Result<Vec<i32>, _>>();
    assert_eq!(store.close_private(user, READING_ENTRY), Ok(()));
    read.expect("there are so many")
}

fn assert_scattered_files_read_the_same(store: &mut Store) {
    for (name, seed) in [("b", 2), ("d", 4), ("e", 5)] {
        assert_eq!(elements(store, 0, name), a_segment_of(seed), "{name}");
    }
}

#[test]
fn nothing_to_move() {
    let mut store = Store::with_segments(4).expect("there are segments");
    assert_changes_nothing(&mut store, Ok(0));
    for (name, seed) in [("a", 1), ("b", 2), ("c", 3), ("d", 4)] {
        make(&mut store, name, seed);
        assert_changes_nothing(&mut store, Ok(0));
    }
    // What is left lies at 0, 1 and 2.
    remove(&mut store, 0, "d");
    assert_changes_nothing(&mut store, Ok(0));
}

/// "Listed segments numbered H or above, in rising order, go to the free ones below H, in rising order; no other moves."
/// "Segments left behind keep their cells".
#[test]
fn two_of_three_segments_move() {
    let mut store = scattered();
    let (mut cells, mut tables) = all_cells(&store);
    for (place, from, to) in [(3, 3, 0), (4, 4, 2)] {
        cells.copy_within(cells_of(from), cells_of(to).start);
        tables[first_segment_cell(place)] = to as u32;
    }
    assert_eq!(store.tidy(), copied(2));
    assert!(all_cells(&store) == (cells, tables));
    assert_scattered_files_read_the_same(&mut store);
}

#[test]
fn the_second_time_nothing_moves() {
    let mut store = scattered();
    assert_eq!(store.tidy(), copied(2));
    assert_changes_nothing(&mut store, Ok(0));
}

/// The lowest free segment is number H then.
#[test]
fn the_next_segment_taken() {
    let mut store = scattered();
    assert_eq!((store.free_segments(0), store.tidy(), store.free_segments(0)), (Ok(4), copied(2), Ok(4)));
    make(&mut store, "f", 6);
    assert_eq!(store.cells()[cells_of(LISTED)], a_segment_of(6));
    assert_scattered_files_read_the_same(&mut store);
}

/// Each of users 0 to 5 has a private file "log", of a species each, and user 6 one of temperatures. They grew by turns, so
/// that their segments are mixed.
fn store_with_logs(segments: usize) -> Store<'static> {
    let mut store = Store::with_segments(segments).expect("there are segments");
    let users = 0..Species::ALL.len() as u32;
    for (user, &species) in users.clone().zip(Species::ALL) {
        assert_eq!(store.open_new(user, 0, species), Ok(()));
    }
    for turn in 0..20 {
        for (user, (_, greatest)) in users.clone().zip(PLAIN) {
            let some: Vec<u32> = a_segment_of(turn + user)[..50].iter().map(|number| number & greatest).collect();
            assert_eq!(store.write_run(user, 0, pointer::END, &some), (&[][..], None));
        }
        for &number in &a_segment_of(turn)[..50] {
            assert_eq!(store.write_signed(COLD, 0, pointer::END, -(number as i32)), Ok(()));
        }
    }
    for user in users {
        assert_eq!((store.rename(user, 0, "log"), store.close_private(user, 0)), (Ok(()), Ok(())));
    }
    store
}

/// They do so also where all cells beyond the listed segments are other ones.
#[test]
fn files_of_several_species_read_the_same() {
    const ENOUGH_SEGMENTS: usize = 50;
    const LEFT: [u32; 4] = [1, 2, 4, 5];
    let mut store = store_with_logs(ENOUGH_SEGMENTS);
    remove(&mut store, 0, "log");
    remove(&mut store, 3, "log");
    let read_all = |store: &mut Store| (LEFT.map(|user| elements(store, user, "log")), degrees(store, COLD, "log"));
    let before = read_all(&mut store);
    let free = store.free_segments(0).expect("sound tables");

    assert!(store.tidy().is_ok_and(|cells| cells > 0));
    assert_eq!(read_all(&mut store), before);
    store.cells_mut()[(ENOUGH_SEGMENTS - free as usize) * SEGMENT_CELLS..].fill(u32::MAX);
    assert_eq!(read_all(&mut store), before);
    assert_changes_nothing(&mut store, Ok(0));
}

/// It names the segments that were left behind, which have their cells until they are written to again.
#[test]
fn an_image_saved_before() {
    let mut store = scattered();
    let image = image_of(&store);
    assert_eq!((store.tidy(), store.load(&image)), (copied(2), Ok(())));
    assert_scattered_files_read_the_same(&mut store);

    // Segment 3, where the image has "d", is the lowest free one afterwards.
    assert_eq!(store.tidy(), copied(2));
    make(&mut store, "f", 6);
    assert_eq!(store.load(&image), Ok(()));
    assert_eq!(elements(&mut store, 0, "d"), a_segment_of(6));
}

/// The listed segments lie at the begin of the store, so one that ends after them is enough.
#[test]
fn an_image_saved_afterwards_over_fewer_cells() {
    let mut store = scattered();
    let shorter = |store: &Store| {
        let mut image = image_of(store);
        image[0] = heading(LISTED);
        let cells = store.cells()[..LISTED * SEGMENT_CELLS].to_vec();
        let mut shorter = Store::from_cells(cells, vec![0; dorrivand::tables_length()]);
        shorter.load(&image).map(|()| shorter)
    };
    assert_eq!(shorter(&store).err(), Some(Refusal::UnsoundImage));
    assert_eq!(store.tidy(), copied(2));
    let mut shorter = shorter(&store).expect("a sound image");
    assert_eq!(shorter.free_segments(0), Ok(0));
    assert_scattered_files_read_the_same(&mut shorter);
}
