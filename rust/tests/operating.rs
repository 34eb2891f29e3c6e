//! What docs/OPERATING.md says of images and stores.

#[path = "common/image.rs"]
mod image;

use dorrivand::{pointer, Refusal, Species, Store};
use image::{heading, image_of};
use std::thread;

const SEGMENT_CELLS: usize = 64;

/// A store of two segments, both held by user 0's file "a", which is private.
fn a_full_store() -> Store<'static> {
    let mut store = Store::with_segments(2).expect("there are segments");
    assert_eq!(store.open_new(0, 0, Species::Bits32), Ok(()));
    for number in 0..65 {
        assert_eq!(store.write(0, 0, pointer::END, number), Ok(()));
    }
    assert_eq!(store.rename(0, 0, "a"), Ok(()));
    assert_eq!(store.close_private(0, 0), Ok(()));
    store
}

/// The store's cells with so many segments of zeros more, and the image loaded over them.
fn loaded(store: &Store, image: &[u32], more: usize) -> Result<Store<'static>, Refusal> {
    let mut cells = store.cells().to_vec();
    cells.resize(cells.len() + more * SEGMENT_CELLS, 0);
    let mut longer = Store::from_cells(cells, vec![0; dorrivand::tables_length()]);
    longer.load(image).map(|()| longer)
}

/// The full store, saved and loaded over so many segments more, from an image that was changed between.
fn restored(more: usize, change: impl FnOnce(&mut [u32])) -> Result<Store<'static>, Refusal> {
    let store = a_full_store();
    let mut image = image_of(&store);
    assert_eq!(image[0], heading(2));
    change(&mut image);
    loaded(&store, &image, more)
}

fn assert_a_is_whole(store: &mut Store) {
    assert_eq!(store.open_read(0, 0, "a"), Ok(()));
    let elements = store.elements(0, 0, pointer::WORK).collect::<Result<Vec<u32>, _>>();
    assert_eq!(elements, Ok((0..65).collect()));
}

#[test]
fn a_load_keeps_the_images_number_of_segments() {
    let store = restored(3, |_| ()).expect("a sound image");
    assert_eq!(store.free_segments(0), Ok(0));
}

#[test]
fn growing_by_the_number_in_the_image() {
    let mut store = restored(3, |image| image[0] = heading(5)).expect("a sound image");
    assert_eq!(store.free_segments(0), Ok(3));
    assert_a_is_whole(&mut store);
    assert_eq!(restored(3, |image| image[0] = heading(6)).err(), Some(Refusal::UnsoundImage));
}

#[test]
fn shrinking_needs_the_segments_that_are_left_out_to_be_free() {
    assert_eq!(restored(0, |image| image[0] = heading(1)).err(), Some(Refusal::UnsoundImage));
}

#[test]
fn an_image_in_the_other_byte_order_is_refused() {
    let swap = |image: &mut [u32]| image.iter_mut().for_each(|cell| *cell = cell.swap_bytes());
    assert_eq!(restored(0, swap).err(), Some(Refusal::UnsoundImage));
}

/// A backup while somebody works has the files as they were at their last close, and nothing open.
#[test]
fn a_backup_while_a_file_is_open() {
    let mut store = restored(1, |image| image[0] = heading(3)).expect("a sound image");
    assert_eq!((store.open_work(0, 3, "a"), store.reset(0, 3)), (Ok(()), Ok(())));
    assert_eq!(store.write(0, 3, pointer::WORK, 999), Ok(()));
    let mut backup = loaded(&store, &image_of(&store), 0).expect("a sound image");
    assert_eq!(backup.begin(0, 3), Err(Refusal::EntryNotOpen));
    assert_a_is_whole(&mut backup);
}

#[test]
fn inquiries_side_by_side() {
    let mut store = a_full_store();
    assert_eq!(store.open_read(0, 0, "a"), Ok(()));
    let store = &store;
    thread::scope(|threads| {
        for _ in 0..4 {
            threads.spawn(move || {
                for _ in 0..100 {
                    assert_eq!((store.free_segments(0), store.end(0, 0)), (Ok(0), Ok(66)));
                    assert_eq!(image_of(store)[0], heading(2));
                }
            });
        }
    });
}
