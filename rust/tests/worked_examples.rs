//! "Worked examples", through the door.

#[path = "common/far.rs"]
mod far;

use dorrivand::{pointer, Refusal, Species, Store};
use far::{move_empty_file, GREATEST_END};

fn store(segments: usize) -> Store<'static> {
    Store::with_segments(segments).expect("there is a segment")
}

/// A store with a new file of this species at entry 0 of user 0, and these elements.
fn store_with(segments: usize, species: u32, elements: &[u32]) -> Store<'static> {
    let mut store = store(segments);
    assert_eq!(store.open_new(0, 0, species), Ok(()));
    for &element in elements {
        assert_eq!(store.write(0, 0, pointer::END, element), Ok(()));
    }
    store
}

fn symbols(store: &Store) -> Vec<u32> {
    (0..12).map(|k| store.symbol(0, 0, k).expect("the entry is open")).collect()
}

/// The saved image, which must be these cells and zeros after them.
fn assert_image(store: &Store, first_cells: &[u32]) {
    let mut image = vec![u32::MAX; 961];
    assert_eq!(store.save(&mut image), Ok(()));
    assert_eq!(&image[..first_cells.len()], first_cells);
    assert!(image[first_cells.len()..].iter().all(|&cell| cell == 0));
}

#[test]
fn lift_7_and_capital_lift() {
    let mut store = store_with(1, 5, &[]);
    assert_eq!(store.rename(0, 0, "lift 7"), Ok(()));
    assert_eq!(symbols(&store), [21, 18, 15, 29, 7, 63, 63, 63, 63, 63, 63, 63]);
    assert_eq!(store.rename(0, 0, "Lift"), Ok(()));
    assert_eq!(symbols(&store), [63; 12]);
}

#[test]
fn width_4_position_10_element_10() {
    let store = store_with(1, 2, &[0, 0, 0, 0, 0, 0, 0, 0, 0, 10]);
    assert_eq!(store.cells()[..3], [0, 0x0A00_0000, 0]);
}

/// "A reading of 300 stored as 44 sent a mechanic to a cool motor."
#[test]
fn three_hundred_in_species_3() {
    let mut store = store_with(1, 3, &[]);
    assert_eq!(store.write(0, 0, pointer::END, 300), Err(Refusal::TooWide));
    assert_eq!((store.end(0, 0), store.free_segments(0)), (Ok(1), Ok(1)));
}

/// "the top bit counting minus 32,768, E = 128"
#[test]
fn degrees_below_zero() {
    let mut store = store_with(1, 6, &[]);
    for number in [-5, 32_767, -32_768, -1] {
        assert_eq!(store.write_signed(0, 0, pointer::END, number), Ok(()));
    }
    assert_eq!(store.cells()[..3], [0xFFFB_7FFF, 0x8000_FFFF, 0]);
    assert_eq!(store.claim(0, 0), Ok(128));
    assert_eq!((store.next_signed(0, 0, pointer::WORK), store.prev_signed(0, 0, pointer::END)), (Ok(-5), Ok(-1)));
}

#[test]
fn claims_at_a_boundary() {
    let mut store = store_with(4, 5, &[7; 65]);
    for _ in 0..63 {
        assert_eq!(store.next(0, 0, pointer::BEGIN), Ok(7));
    }
    assert_eq!((store.begin(0, 0), store.end(0, 0)), (Ok(64), Ok(66)));
    assert_eq!((store.claim(0, 0), store.free_segments(0)), (Ok(65), Ok(2)));
    assert_eq!((store.prev(0, 0, pointer::END), store.next(0, 0, pointer::BEGIN)), (Ok(7), Ok(7)));
    assert_eq!((store.begin(0, 0), store.end(0, 0)), (Ok(65), Ok(65)));
    assert_eq!((store.claim(0, 0), store.free_segments(0)), (Ok(0), Ok(4)));
}

#[test]
fn prev_through_the_end() {
    let mut store = store_with(1, 5, &[10, 20]);
    assert_eq!(store.prev(0, 0, pointer::END), Ok(20));
    assert_eq!(store.prev(0, 0, pointer::END), Ok(10));
    assert_eq!(store.prev(0, 0, pointer::END), Err(Refusal::BelowBegin));
}

#[test]
fn an_own_pointer_at_the_end() {
    let mut store = store_with(1, 5, &[10, 20]);
    assert_eq!(store.new_pointer(0, 0, pointer::END), Ok(3));
    assert_eq!(store.write(0, 0, 3, 5), Err(Refusal::BeyondEnd));
    assert_eq!(store.prev(0, 0, 3), Ok(20));
    assert_eq!(store.end(0, 0), Ok(3));
}

/// "both saved images are form 2, with 0x02100000 first"
#[test]
fn the_two_saved_images() {
    let mut store = store(128);
    assert_image(&store, &[0x0210_0000]);
    assert_eq!(store.open_new(2, 0, Species::Bits32), Ok(()));
    assert_eq!(store.write(2, 0, pointer::END, 1), Ok(()));
    assert_eq!(store.rename(2, 0, "a"), Ok(()));
    assert_eq!(store.close_private(2, 0), Ok(()));
    assert_image(&store, &[0x0210_0000, 0x95FF_FFFF, 0xFFFF_FFFF, 0xFFAD_0000, 0x0001_0000, 0x0002_0000]);
}

#[test]
fn abandoned_work_leaves_the_file_as_it_was() {
    let mut store = store_with(4, 5, &[10, 20]);
    assert_eq!(store.rename(0, 0, "a"), Ok(()));
    assert_eq!(store.close_private(0, 0), Ok(()));
    assert_eq!(store.open_work(0, 0, "a"), Ok(()));
    assert_eq!(store.prev(0, 0, pointer::END), Ok(20));
    assert_eq!(store.write(0, 0, pointer::END, 99), Ok(()));
    assert_eq!(store.abandon(0, 0), Ok(()));
    assert_eq!(store.open_read(0, 0, "a"), Ok(()));
    assert_eq!((store.next(0, 0, pointer::WORK), store.next(0, 0, pointer::WORK)), (Ok(10), Ok(20)));
    assert_eq!(store.next(0, 0, pointer::WORK), Err(Refusal::BeyondEnd));
}

/// "a work opening of an old file puts pointer 2 at the end value; new and read openings stay as in 01"
#[test]
fn a_work_opening_starts_at_the_end() {
    let mut store = store_with(4, 5, &[10]);
    assert_eq!(store.value(0, 0, pointer::WORK), Ok(1));
    assert_eq!((store.rename(0, 0, "a"), store.close_private(0, 0)), (Ok(()), Ok(())));
    assert_eq!(store.open_work(0, 0, "a"), Ok(()));
    assert_eq!(store.value(0, 0, pointer::WORK), Ok(2));
    assert_eq!(store.write(0, 0, pointer::WORK, 99), Err(Refusal::BeyondEnd));
    assert_eq!(store.write(0, 0, pointer::END, 20), Ok(()));
    assert_eq!(store.next(0, 0, pointer::WORK), Ok(20));
    assert_eq!((store.reset(0, 0), store.next(0, 0, pointer::WORK)), (Ok(()), Ok(10)));
    assert_eq!(store.close_private(0, 0), Ok(()));
    assert_eq!(store.open_read(0, 0, "a"), Ok(()));
    assert_eq!(store.value(0, 0, pointer::WORK), Ok(1));
    assert_eq!((store.next(0, 0, pointer::WORK), store.next(0, 0, pointer::WORK)), (Ok(10), Ok(20)));
}

/// "append is done at e = 4,294,967,294 and 10 at 4,294,967,295"
#[test]
fn positions_are_used_up() {
    let mut store = store_with(1, 5, &[]);
    move_empty_file(&mut store, 4_294_967_294);
    assert_eq!(store.write(0, 0, pointer::END, 8), Ok(()));
    assert_eq!(store.end(0, 0), Ok(GREATEST_END));
    assert_eq!(store.write(0, 0, pointer::END, 9), Err(Refusal::PositionsUsedUp));
}

#[test]
fn stores_of_63_and_64_cells() {
    let started = |cells: usize| {
        let mut store = Store::from_cells(vec![0; cells], vec![0; dorrivand::tables_length()]);
        store.fresh_start().and_then(|()| store.free_segments(0))
    };
    assert_eq!(started(63), Err(Refusal::UnsoundTables));
    assert_eq!(started(64), Ok(1));
}

#[test]
fn eight_and_not_nine() {
    let mut store = store_with(32, 5, &[3; 2048]);
    assert_eq!(store.free_segments(0), Ok(0));
    assert_eq!(store.write(0, 0, pointer::END, 3), Err(Refusal::TooManySegments));
}
