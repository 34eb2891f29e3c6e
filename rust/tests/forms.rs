//! "From the old image to the new and back", through the door: what is moved is the same files, and comes back as it was.

#[path = "common/image.rs"]
mod image;
#[path = "common/moves.rs"]
mod moves;
#[path = "common/printed.rs"]
mod printed;

use dorrivand::{forms, pointer, Species, Store};
use image::{heading, image_of};
use moves::{down, old_heading, up};
use printed::{of_length, store_with_a, FORM_1_LENGTH, SEGMENTS, WITH_A};

const FORM_2_LENGTH: usize = 961;

/// The printed cells in form 2, before zeros: "begin and end of 32 bits each".
const WITH_A_IN_FORM_2: [u32; 6] = [0x0210_0000, 0x95FF_FFFF, 0xFFFF_FFFF, 0xFFAD_0000, 0x0001_0000, 0x0002_0000];

/// What is saved goes down, and comes up again as it was. Delivers both images, the old one first.
fn there_and_back(store: &Store) -> (Vec<u32>, Vec<u32>) {
    let (image, segments) = (image_of(store), store.cells().len() / 64);
    let old = down(&image, segments as u32).expect("no position is too great");
    assert_eq!((image[0], old[0]), (heading(segments), old_heading(segments)));
    assert!(up(&old, segments as u32).as_ref() == Ok(&image), "down, then up, gives other cells");
    (old, image)
}

#[test]
fn lengths() {
    assert_eq!((dorrivand::old_image_length(), dorrivand::image_length()), (FORM_1_LENGTH, FORM_2_LENGTH));
}

#[test]
fn the_printed_images() {
    for (old, image) in [(&WITH_A[..1], &WITH_A_IN_FORM_2[..1]), (&WITH_A, &WITH_A_IN_FORM_2)] {
        let (old, image) = (of_length(old, FORM_1_LENGTH), of_length(image, FORM_2_LENGTH));
        assert_eq!(up(&old, SEGMENTS as u32).as_ref(), Ok(&image));
        assert_eq!(down(&image, SEGMENTS as u32), Ok(old));
    }
    assert_eq!(there_and_back(&store_with_a()).0, of_length(&WITH_A, FORM_1_LENGTH));
}

/// What an earlier version left behind: its image, and the store's cells.
#[test]
fn an_old_backup_is_restored() {
    let mut cells = vec![0; SEGMENTS * 64];
    cells[0] = 77;
    let image = up(&of_length(&WITH_A, FORM_1_LENGTH), SEGMENTS as u32).expect("a sound image");
    let mut store = Store::from_cells(cells, vec![0; dorrivand::tables_length()]);
    assert_eq!((store.load(&image), store.free_segments(0)), (Ok(()), Ok(127)));
    assert_eq!((store.open_work(2, 0, "a"), store.prev(2, 0, pointer::WORK)), (Ok(()), Ok(77)));
    assert_eq!((store.begin(2, 0), store.end(2, 0)), (Ok(1), Ok(2)));
}

/// Of each species a public file without elements and a private one with some.
#[test]
fn files_of_every_kind() {
    let mut store = Store::with_segments(16).expect("there are segments");
    for (number, species) in (0..).zip(Species::ALL.iter().copied()) {
        for (entry, elements) in [(0, 0), (1, 130)] {
            assert_eq!(store.open_new(number, entry, species), Ok(()));
            for _ in 0..elements {
                let written = match species {
                    Species::Signed16 => store.write_signed(number, entry, pointer::END, -1),
                    _ => store.write(number, entry, pointer::END, 1),
                };
                assert_eq!(written, Ok(()));
            }
            assert_eq!(store.rename(number, entry, format!("{number}{elements}")), Ok(()));
        }
        assert_eq!((store.close_public(number, 0), store.close_private(number, 1)), (Ok(()), Ok(())));
    }
    let (_, image) = there_and_back(&store);
    assert_eq!((store.fresh_start(), store.load(&image)), (Ok(()), Ok(())));
    assert_eq!((store.open_read(3, 0, "3130"), store.elements(3, 0, pointer::WORK).count()), (Ok(()), 130));
}

/// "Species 6 moves both ways"
#[test]
fn temperatures() {
    let mut store = Store::with_segments(2).expect("there are segments");
    assert_eq!(store.open_new(0, 0, Species::Signed16), Ok(()));
    assert_eq!((store.write_signed(0, 0, pointer::END, -5), store.rename(0, 0, "frost 7")), (Ok(()), Ok(())));
    assert_eq!(store.close_private(0, 0), Ok(()));
    let (old, image) = there_and_back(&store);
    // The species are the last of the record's first 80 bits, which both forms have in one place.
    assert_eq!((old[3] >> 16 & 7, image[3] >> 16 & 7), (6, 6));
    assert_eq!((store.fresh_start(), store.load(&image), store.open_read(0, 0, "frost 7")), (Ok(()), Ok(()), Ok(())));
    assert_eq!(store.next_signed(0, 0, pointer::WORK), Ok(-5));
}

/// 64 records, 32 of which hold 32 segments each: every segment number there is, in every place for one.
#[test]
fn a_full_catalogue() {
    let mut store = Store::with_segments(1024).expect("there are segments");
    let elements: Vec<u32> = (0..32 * 64).collect();
    for number in 0..64 {
        let (user, list) = (number % 8, if number < 32 { &elements[..] } else { &[] });
        assert_eq!(store.open_new(user, 0, Species::Bits32), Ok(()));
        assert_eq!(store.write_run(user, 0, pointer::END, list), (&[][..], None));
        assert_eq!(store.rename(user, 0, format!("lift {number}")), Ok(()));
        assert_eq!(store.close_public(user, 0), Ok(()));
    }
    assert_eq!(store.free_segments(0), Ok(0));
    let (old, image) = there_and_back(&store);

    // The last ten bits of the 32nd record, before the zeros of form 2.
    assert_eq!((old[32 * 14] & 0x3FF, image[32 * 15] & 0x03FF_FFFF), (1023, 1023 << 16));
    assert_eq!((store.fresh_start(), store.load(&image), store.open_read(7, 3, "lift 31")), (Ok(()), Ok(()), Ok(())));
    let mut read = vec![0; elements.len()];
    assert_eq!(store.fill_run(7, 3, pointer::WORK, &mut read), (elements.len(), None));
    assert!(read == elements);
}

/// What the cells hold into which an image is moved is not looked at.
#[test]
fn over_cells_of_any_contents() {
    let (old, image) = there_and_back(&store_with_a());
    for before in [0, 1, u32::MAX] {
        let (mut higher, mut lower) = (vec![before; FORM_2_LENGTH], vec![before; FORM_1_LENGTH]);
        assert_eq!(forms::up(&old, &mut higher, SEGMENTS as u32), Ok(()));
        assert_eq!(forms::down(&image, &mut lower, SEGMENTS as u32), Ok(()));
        assert!(higher == image && lower == old, "over cells of {before}");
    }
}
