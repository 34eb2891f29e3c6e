//! "Load takes a 961-cell form 2 image only", through the door: other forms, other lengths, and the bits that are zero.

#[path = "common/image.rs"]
mod image;
#[path = "common/printed.rs"]
mod printed;

use dorrivand::{pointer, Refusal, Species, Store};
use image::{heading, image_of};
use printed::{of_length, store_with_a, FORM_1_LENGTH, SEGMENTS, WITH_A};

/// "480 bits, 961 cells in all"
const LENGTH: usize = 961;
const RECORDS: usize = 64;
const RECORD_CELLS: usize = 15;

/// "16 zero bits at a record's end"
const SPARE_BITS: u32 = 16;

/// Makes the call, which must refuse the image and change no cell.
fn assert_refused(store: &mut Store, call: impl FnOnce(&mut Store) -> Result<(), Refusal>) {
    let before = (store.cells().to_vec(), store.tables().to_vec());
    assert_eq!(call(store), Err(Refusal::UnsoundImage));
    assert!(before == (store.cells().to_vec(), store.tables().to_vec()), "a cell changed");
}

fn assert_not_loaded(image: &[u32]) {
    assert_refused(&mut store_with_a(), |store| store.load(image));
}

/// All that follows spoils an image that is loaded as it is.
#[test]
fn as_it_was_saved() {
    let mut store = store_with_a();
    let image = image_of(&store);
    assert_eq!((image.len(), image[0]), (LENGTH, heading(SEGMENTS)));
    assert_eq!((store.fresh_start(), store.load(&image), store.open_read(2, 0, "a")), (Ok(()), Ok(()), Ok(())));
    assert_eq!(store.next(2, 0, pointer::WORK), Ok(7));
}

#[test]
fn other_lengths() {
    let mut store = store_with_a();
    let image = image_of(&store);
    for length in [0, 1, FORM_1_LENGTH - 1, FORM_1_LENGTH, LENGTH - 1, LENGTH + 1, 2 * LENGTH] {
        assert_not_loaded(&of_length(&image, length));
        let mut room = vec![5; length];
        assert_refused(&mut store, |store| store.save(&mut room));
        assert!(room.iter().all(|&cell| cell == 5), "{length} cells, and one was written to");
    }
}

#[test]
fn other_form_numbers() {
    let mut image = image_of(&store_with_a());
    for form in (0..=255).filter(|&form| form != 2) {
        image[0] = form << 24 | heading(SEGMENTS) & 0x00FF_FFFF;
        assert_not_loaded(&image);
    }
}

/// Not before they are moved up: in their own length, in that of form 2, and where one only says that it is form 2.
#[test]
fn images_of_earlier_versions() {
    let fresh = of_length(&WITH_A[..1], FORM_1_LENGTH);
    let with_a = of_length(&WITH_A, FORM_1_LENGTH);
    for image in [fresh, with_a.clone()] {
        assert_not_loaded(&image);
        assert_not_loaded(&of_length(&image, LENGTH));
    }
    let mut called_form_2 = of_length(&with_a, LENGTH);
    called_form_2[0] = heading(SEGMENTS);
    assert_not_loaded(&called_form_2);
}

/// In the record that is used, and in those that are not.
#[test]
fn each_spare_bit() {
    let image = image_of(&store_with_a());
    let mut store = store_with_a();
    for last_cell in (1..=RECORDS).map(|record| record * RECORD_CELLS) {
        for bit in 0..SPARE_BITS {
            let mut spoiled = image.clone();
            spoiled[last_cell] ^= 1 << bit;
            assert_refused(&mut store, |store| store.load(&spoiled));
        }
    }
}

/// The 32nd segment number ends where the spare bits begin.
#[test]
fn a_record_of_32_segments() {
    let elements: Vec<u32> = (0..32 * 64).collect();
    let mut store = Store::with_segments(32).expect("there are segments");
    assert_eq!(store.open_new(0, 0, Species::Bits32), Ok(()));
    assert_eq!(store.write_run(0, 0, pointer::END, &elements), (&[][..], None));
    assert_eq!((store.rename(0, 0, "a"), store.close_private(0, 0)), (Ok(()), Ok(())));

    // The last bits of 30, then 31 in ten.
    let image = image_of(&store);
    assert_eq!(image[RECORD_CELLS], 0b011110 << 26 | 31 << 16);
    assert_eq!((store.fresh_start(), store.load(&image), store.open_read(0, 0, "a")), (Ok(()), Ok(()), Ok(())));
    let mut read = vec![0; elements.len()];
    assert_eq!(store.fill_run(0, 0, pointer::WORK, &mut read), (elements.len(), None));
    assert!(read == elements);
}
