//! Which images are not moved, through the door: of other lengths, unsound, of too many segments, with ends that are too great.

#[path = "common/far.rs"]
mod far;
#[path = "common/image.rs"]
mod image;
#[path = "common/moves.rs"]
mod moves;
#[path = "common/printed.rs"]
mod printed;

use dorrivand::{forms, pointer, Refusal, Species, Store};
use far::{move_empty_file, GREATEST_END};
use image::{heading, image_of};
use moves::{down, moved, old_heading, up};
use printed::{of_length, store_with_a, FORM_1_LENGTH, SEGMENTS, WITH_A};
use std::ops::RangeInclusive;

const FORM_2_LENGTH: usize = 961;
const CELL_BITS: usize = 32;

/// Of the store that the images here are judged for.
const FITTING: u32 = SEGMENTS as u32;

/// "every begin and end is at most 16,777,215"
const OLD_GREATEST_END: u32 = 16_777_215;

/// Document 01's second image in both forms.
fn with_a() -> (Vec<u32>, Vec<u32>) {
    (of_length(&WITH_A, FORM_1_LENGTH), image_of(&store_with_a()))
}

/// The image of a store with one file, which holds these positions.
fn image_with_file(begin: u32, end: u32) -> Vec<u32> {
    let mut store = Store::with_segments(SEGMENTS).expect("there are segments");
    assert_eq!(store.open_new(0, 0, Species::Bits32), Ok(()));
    move_empty_file(&mut store, begin);
    for _ in begin..end {
        assert_eq!(store.write(0, 0, pointer::END, 7), Ok(()));
    }
    assert_eq!((store.rename(0, 0, "a"), store.close_private(0, 0)), (Ok(()), Ok(())));
    image_of(&store)
}

/// "A lent image of the wrong length, either one, is 22"
#[test]
fn other_lengths() {
    let (old, image) = with_a();
    let others = [0, 1, FORM_1_LENGTH - 1, FORM_1_LENGTH, FORM_1_LENGTH + 1, FORM_2_LENGTH - 1, FORM_2_LENGTH, 1024];
    for length in others {
        for room in others {
            let of_form_1 = of_length(&old, length);
            let answer = moved(room, |image| forms::up(&of_form_1, image, FITTING));
            assert_eq!(answer.is_ok(), (length, room) == (FORM_1_LENGTH, FORM_2_LENGTH), "{length} up to {room}");
            assert!(answer.is_ok() || answer == Err(Refusal::UnsoundImage));

            let of_form_2 = of_length(&image, length);
            let answer = moved(room, |old| forms::down(&of_form_2, old, FITTING));
            assert_eq!(answer.is_ok(), (length, room) == (FORM_2_LENGTH, FORM_1_LENGTH), "{length} down to {room}");
            assert!(answer.is_ok() || answer == Err(Refusal::UnsoundImage));
        }
    }
}

/// The image has 128 segments. 64 times some of these numbers is beyond 32 bits.
#[test]
fn numbers_of_segments() {
    let (old, image) = with_a();
    for segments in [128, 129, 1024, 1025, 1 << 26, (1 << 26) + 1, 1 << 31, u32::MAX] {
        assert_eq!((up(&old, segments).as_ref(), down(&image, segments).as_ref()), (Ok(&image), Ok(&old)));
    }
    for segments in [0, 1, 127] {
        assert_eq!(up(&old, segments), Err(Refusal::UnsoundImage));
        assert_eq!(down(&image, segments), Err(Refusal::UnsoundImage));
    }
}

/// "1 to 1,024 segments", however many the store has.
#[test]
fn numbers_in_the_image() {
    for segments in 0..2048 {
        let old = of_length(&[old_heading(segments)], FORM_1_LENGTH);
        let image = of_length(&[heading(segments)], FORM_2_LENGTH);
        let (higher, lower) = match segments {
            1..=1024 => (Ok(&image), Ok(&old)),
            _ => (Err(&Refusal::UnsoundImage), Err(&Refusal::UnsoundImage)),
        };
        assert_eq!((up(&old, u32::MAX).as_ref(), down(&image, u32::MAX).as_ref()), (higher, lower), "{segments}");
    }
}

/// Which bits of "a"'s record can be other ones, by their places in a record whose begin and end have so many bits each:
/// they make another letter or a second one, another owner, public, another species, an end in the same stretch, or a segment
/// below 128.
fn sound_otherwise(bound_bits: usize) -> [RangeInclusive<usize>; 6] {
    let list = 80 + 2 * bound_bits;
    [2..=7, 73..=77, 79..=79, list - 6..=list - 3, list - 1..=list - 1, list + 3..=list + 9]
}

/// Each bit of the image by itself: the move is refused, or it moves another image, which comes back as it was.
fn assert_each_bit(cells: &[u32], bound_bits: usize, there: Move, back: Move) {
    let others = sound_otherwise(bound_bits);
    for bit in 0..cells.len() * CELL_BITS {
        let mut spoiled = cells.to_vec();
        spoiled[bit / CELL_BITS] ^= 1 << (CELL_BITS - 1 - bit % CELL_BITS);
        let is_sound = bit >= CELL_BITS && others.iter().any(|range| range.contains(&(bit - CELL_BITS)));
        match there(&spoiled, FITTING) {
            Ok(image) => assert!(is_sound && back(&image, FITTING).as_ref() == Ok(&spoiled), "bit {bit}"),
            Err(refusal) => assert_eq!((is_sound, refusal), (false, Refusal::UnsoundImage), "bit {bit}"),
        }
    }
}

type Move = fn(&[u32], u32) -> Result<Vec<u32>, Refusal>;

#[test]
fn one_bit_of_an_old_image() {
    assert_each_bit(&with_a().0, 24, up, down);
}

#[test]
fn one_bit_of_a_new_image() {
    assert_each_bit(&with_a().1, 32, down, up);
}

/// Of records that are all zero nothing but the form number tells in which form they are.
#[test]
fn other_form_numbers() {
    for form in 0..=255 {
        let heading = form << 24 | heading(SEGMENTS) & 0x00FF_FFFF;
        assert_eq!(up(&of_length(&[heading], FORM_1_LENGTH), FITTING).is_ok(), form == 1);
        assert_eq!(down(&of_length(&[heading], FORM_2_LENGTH), FITTING).is_ok(), form == 2);
    }
}

#[test]
fn the_greatest_ends_of_form_1() {
    let limit = OLD_GREATEST_END;
    for (begin, end) in [(limit - 1, limit), (limit - 100, limit), (limit, limit)] {
        let image = image_with_file(begin, end);
        let old = down(&image, FITTING).expect("no position is too great");
        assert_eq!(up(&old, FITTING), Ok(image));
    }
    let beyond = [(limit, limit + 1), (limit - 1, limit + 1), (limit + 1, limit + 1), (1 << 31, (1 << 31) + 1)];
    for (begin, end) in beyond.into_iter().chain([(GREATEST_END - 1, GREATEST_END), (GREATEST_END, GREATEST_END)]) {
        assert_eq!(down(&image_with_file(begin, end), FITTING), Err(Refusal::Far), "{begin} to {end}");
    }
}

/// In whichever of the 64 records it is. Begin and end come after 80 bits of a record's 15 cells: the bit that is worth
/// 16,777,216 is the ninth of its third cell, and of its fourth, from below.
#[test]
fn a_great_end_at_each_place() {
    let mut store = Store::with_segments(SEGMENTS).expect("there are segments");
    for number in 0..64 {
        assert_eq!((store.open_new(0, 0, Species::Bits1), store.rename(0, 0, number.to_string())), (Ok(()), Ok(())));
        assert_eq!(store.close_private(0, 0), Ok(()));
    }
    let image = image_of(&store);
    assert!(down(&image, FITTING).is_ok());
    for place in 0..64 {
        let mut far = image.clone();
        far[1 + 15 * place + 2] ^= 1 << 8;
        far[1 + 15 * place + 3] ^= 1 << 8;
        assert_eq!(down(&far, FITTING), Err(Refusal::Far), "record {place}");
    }
}

/// "22 comes before 24"
#[test]
fn an_unsound_image_before_a_great_end() {
    let image = image_with_file(OLD_GREATEST_END, OLD_GREATEST_END + 1);
    assert_eq!(down(&image, FITTING), Err(Refusal::Far));
    assert_eq!(down(&image, FITTING - 1), Err(Refusal::UnsoundImage));
    for length in [FORM_1_LENGTH - 1, FORM_1_LENGTH + 1] {
        assert_eq!(moved(length, |old| forms::down(&image, old, FITTING)), Err(Refusal::UnsoundImage));
    }
    // The last bit of the last record is called zero.
    let mut spoiled = image;
    spoiled[FORM_2_LENGTH - 1] = 1;
    assert_eq!(down(&spoiled, FITTING), Err(Refusal::UnsoundImage));
}
