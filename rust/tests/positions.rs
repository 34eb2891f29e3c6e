//! "Positions run out", through the door: files at the last positions that there are, read both ways, saved and loaded.

#[path = "common/far.rs"]
mod far;
#[path = "common/image.rs"]
mod image;
#[path = "common/plain.rs"]
mod plain;

use dorrivand::{pointer, Refusal, Species, Store};
use far::{move_empty_file, GREATEST_END};
use image::{heading, image_of};
use plain::PLAIN;

/// Document 01's limit, where nothing is refused any more.
const OLD_GREATEST_END: u32 = 16_777_215;

const MOST_HELD: u32 = 32;

/// A store with a new file of this species at entry 0 of user 0, empty at this position.
fn store_at(segments: usize, species: Species, position: u32) -> Store<'static> {
    let mut store = Store::with_segments(segments).expect("there are segments");
    assert_eq!(store.open_new(0, 0, species), Ok(()));
    move_empty_file(&mut store, position);
    store
}

/// The same with these elements.
fn store_with(segments: usize, species: Species, position: u32, elements: &[u32]) -> Store<'static> {
    let mut store = store_at(segments, species, position);
    assert_eq!(store.write_run(0, 0, pointer::END, elements), (&[][..], None));
    store
}

/// An append is refused for want of positions, and changes no cell; so is a run.
fn assert_used_up(store: &mut Store) {
    let before = (store.cells().to_vec(), store.tables().to_vec());
    assert_eq!(store.write(0, 0, pointer::END, 1), Err(Refusal::PositionsUsedUp));
    assert_eq!(store.write_run(0, 0, pointer::END, &[1, 0]), (&[1, 0][..], Some(Refusal::PositionsUsedUp)));
    assert!(before == (store.cells().to_vec(), store.tables().to_vec()), "an append that is refused changed a cell");
}

/// The work pointer goes from the begin to the end and back.
fn assert_read_both_ways(store: &mut Store, elements: &[u32]) {
    assert_eq!(store.reset(0, 0), Ok(()));
    for &element in elements {
        assert_eq!(store.next(0, 0, pointer::WORK), Ok(element));
    }
    assert_eq!(store.next(0, 0, pointer::WORK), Err(Refusal::BeyondEnd));
    assert_eq!(store.value(0, 0, pointer::WORK), store.end(0, 0));
    for &element in elements.iter().rev() {
        assert_eq!(store.prev(0, 0, pointer::WORK), Ok(element));
    }
    assert_eq!(store.prev(0, 0, pointer::WORK), Err(Refusal::BelowBegin));
}

fn close_as_a(store: &mut Store) {
    assert_eq!((store.rename(0, 0, "a"), store.close_private(0, 0)), (Ok(()), Ok(())));
}

fn saved_and_loaded(store: &mut Store) {
    let image = image_of(store);
    assert_eq!((store.fresh_start(), store.load(&image)), (Ok(()), Ok(())));
}

#[test]
fn the_last_appends_are_read_again() {
    for (species, greatest) in PLAIN {
        let elements = [greatest, 0, 1, greatest];
        let mut store = store_with(2, species, GREATEST_END - 4, &elements[..3]);
        assert_eq!((store.end(0, 0), store.write(0, 0, pointer::END, greatest)), (Ok(GREATEST_END - 1), Ok(())));
        assert_eq!((store.begin(0, 0), store.end(0, 0)), (Ok(GREATEST_END - 4), Ok(GREATEST_END)));
        assert_used_up(&mut store);
        assert_read_both_ways(&mut store, &elements);

        close_as_a(&mut store);
        saved_and_loaded(&mut store);
        assert_eq!(store.open_read(0, 0, "a"), Ok(()));
        assert_read_both_ways(&mut store, &elements);
        let mut read = [9; 5];
        assert_eq!(store.fill_run(0, 0, pointer::WORK, &mut read), (4, Some(Refusal::BeyondEnd)));
        assert_eq!((&read[..4], read[4]), (&elements[..], 9));
    }
}

#[test]
fn the_last_temperatures() {
    let mut store = store_at(1, Species::Signed16, GREATEST_END - 1);
    assert_eq!(store.write_signed(0, 0, pointer::END, -5), Ok(()));
    assert_eq!(store.write_signed(0, 0, pointer::END, -6), Err(Refusal::PositionsUsedUp));
    assert_eq!(store.next_signed(0, 0, pointer::WORK), Ok(-5));
    close_as_a(&mut store);
    saved_and_loaded(&mut store);
    assert_eq!((store.open_work(0, 0, "a"), store.value(0, 0, pointer::WORK)), (Ok(()), Ok(GREATEST_END)));
    assert_eq!(store.prev_signed(0, 0, pointer::END), Ok(-5));
}

/// A work opening of a file that is full so: what is taken back can be appended again, and no more.
#[test]
fn work_at_the_last_positions() {
    let mut store = store_with(2, Species::Bits32, GREATEST_END - 3, &[1, 2, 3]);
    close_as_a(&mut store);
    assert_eq!((store.open_work(0, 0, "a"), store.value(0, 0, pointer::WORK)), (Ok(()), Ok(GREATEST_END)));
    assert_eq!(store.write(0, 0, pointer::WORK, 4), Err(Refusal::BeyondEnd));
    assert_used_up(&mut store);
    assert_eq!((store.prev(0, 0, pointer::END), store.write(0, 0, pointer::END, 4)), (Ok(3), Ok(())));
    assert_used_up(&mut store);

    // An own pointer comes to the greatest end by a write.
    assert_eq!((store.new_pointer(0, 0, pointer::END), store.prev(0, 0, 3)), (Ok(3), Ok(4)));
    assert_eq!((store.write(0, 0, 3, 5), store.value(0, 0, 3)), (Ok(()), Ok(GREATEST_END)));
    assert_read_both_ways(&mut store, &[1, 2, 5]);

    // So does the begin, and then the file is empty and stays so.
    assert_eq!((store.next(0, 0, pointer::BEGIN), store.write(0, 0, pointer::BEGIN, 0)), (Ok(1), Ok(())));
    assert_eq!((store.next(0, 0, pointer::BEGIN), store.begin(0, 0)), (Ok(5), Ok(GREATEST_END)));
    assert_eq!((store.next(0, 0, pointer::BEGIN), store.claim(0, 0)), (Err(Refusal::BeyondEnd), Ok(0)));
    assert_used_up(&mut store);
    close_as_a(&mut store);
    saved_and_loaded(&mut store);
    assert_eq!((store.open_work(0, 0, "a"), store.free_segments(0)), (Ok(()), Ok(2)));
    assert_eq!((store.begin(0, 0), store.end(0, 0)), (Ok(GREATEST_END), Ok(GREATEST_END)));
}

/// "begin and end of 32 bits each"
#[test]
fn the_image_of_a_file_at_the_end() {
    let mut store = store_with(128, Species::Bits32, GREATEST_END - 4, &[1, 2, 3, 4]);
    close_as_a(&mut store);
    let record = [0x95FF_FFFF, 0xFFFF_FFFF, 0xFF8D_FFFF, 0xFFFB_FFFF, 0xFFFF_0000];
    let image = image_of(&store);
    assert_eq!((image[0], &image[1..6]), (heading(128), &record[..]));
    assert!(image[6..].iter().all(|&cell| cell == 0));
}

/// The last stretch ends with position 4,294,967,296, which no file comes to. It is claimed all the same: "the number of
/// positions from b to the end of the last held stretch".
#[test]
fn the_claim_at_the_end() {
    for (species, _) in PLAIN.into_iter().chain([(Species::Signed16, 0)]) {
        let mut store = store_at(1, species, GREATEST_END - 1);
        let appended = match species {
            Species::Signed16 => store.write_signed(0, 0, pointer::END, 1),
            _ => store.write(0, 0, pointer::END, 1),
        };
        assert_eq!((appended, store.claim(0, 0)), (Ok(()), Ok(3)), "{species:?}");
    }
}

/// All 32 segments at the last stretches: 10 is given, and not 8 or 9.
#[test]
fn thirty_two_segments_at_the_end() {
    for (species, greatest) in PLAIN {
        let width = greatest.count_ones();
        let claim = MOST_HELD * 2048 / width;
        let begin = GREATEST_END - claim + 2;
        let elements: Vec<u32> = (begin..GREATEST_END).map(|position| position & greatest).collect();
        let mut store = store_with(MOST_HELD as usize, species, begin, &elements);
        assert_eq!((store.claim(0, 0), store.free_segments(0)), (Ok(claim), Ok(0)));
        assert_used_up(&mut store);

        close_as_a(&mut store);
        saved_and_loaded(&mut store);
        assert_eq!((store.open_read(0, 0, "a"), store.claim(0, 0)), (Ok(()), Ok(claim)));
        let mut read = vec![0; elements.len()];
        assert_eq!(store.fill_run(0, 0, pointer::WORK, &mut read), (elements.len(), None));
        assert!(read == elements, "{species:?}");
    }
}

/// "A busy landing log that drops its head each night comes to 16,777,215", and goes on.
#[test]
fn past_the_old_limit() {
    let mut store = store_with(2, Species::Bits32, OLD_GREATEST_END - 1, &[1, 2, 3, 4]);
    assert_eq!((store.end(0, 0), store.claim(0, 0)), (Ok(OLD_GREATEST_END + 3), Ok(3 + 64)));
    assert_read_both_ways(&mut store, &[1, 2, 3, 4]);
    close_as_a(&mut store);
    saved_and_loaded(&mut store);
    assert_eq!((store.open_work(0, 0, "a"), store.free_segments(0)), (Ok(()), Ok(0)));
    assert_read_both_ways(&mut store, &[1, 2, 3, 4]);
}
