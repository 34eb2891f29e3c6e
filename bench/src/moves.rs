//! Random moves of images, up from form 1 to form 2 and down again, by which proved code and twin are held against each other, and what document 02's P7 says
//! of them.
use crate::agree::refused_by;
use crate::calls::{is_done, Call, Lent};
use crate::damage::{self, UNSOUND_IMAGES, UNSOUND_OLD_IMAGES};
use crate::heard::Heard;
use crate::random::Random;
use crate::starts::lent;
use crate::tables::{empty, file, short, Content, CELLS, ELEMENTS, SEGMENTS};
use crate::twin::layout::{record, records, PLACES};
use crate::twin::{IMAGE, OLD_GREATEST_END, OLD_IMAGE};
use crate::{form_1, twin};

const DONE: usize = 0;
const IMAGE_REFUSED: usize = 22;
const FAR_REFUSED: usize = 24;

/// So many segments have no cell, if their number is cut to 32 bits.
const NO_CELL: u32 = 1 << 26;

/// One of the two images that are lent.
type Image = fn(&mut Lent) -> &mut Vec<u32>;

/// A move and the one back, as over so many segments, and the images that the first reads and writes.
struct Way {
    there: fn(u32) -> Call,
    back: fn(u32) -> Call,
    read: Image,
    written: Image,
}

const UP: Way = Way { there: Call::Up, back: Call::Down, read: |lent| &mut lent.old, written: |lent| &mut lent.image };
const DOWN: Way =
    Way { there: Call::Down, back: Call::Up, read: |lent| &mut lent.image, written: |lent| &mut lent.old };

/// Both make the call.
fn made(call: &Call, lent: &mut Lent, heard: &mut Heard) -> usize {
    let mut beside = lent.clone();
    refused_by(call, lent, &mut beside, heard)
}

/// Moves an image, whatever the cells held that are written. "Up then down gives the same cells; down, where done, then up too."
fn there_and_back(random: &mut Random, way: &Way, mut lent: Lent, segments: u32, heard: &mut Heard) -> (usize, Lent) {
    (way.written)(&mut lent).fill(random.cell());
    let refusal = made(&(way.there)(segments), &mut lent, heard);
    if refusal == DONE {
        let moved = lent.clone();
        (way.read)(&mut lent).fill(random.cell());
        assert_eq!(made(&(way.back)(segments), &mut lent, heard), DONE, "what moved does not move back");
        assert!(lent == moved, "an image that moved and moved back has other cells");
    }
    (refusal, lent)
}

/// The number of segments that an image is judged by: the image's own, its neighbours, great ones, or any.
fn about(random: &mut Random, own: u32) -> u32 {
    match random.below(10) {
        0 => own - 1,
        1 => own + 1,
        2 => SEGMENTS,
        3 => NO_CELL,
        4 => u32::MAX,
        5 => random.cell(),
        _ => own,
    }
}

fn is_far(tables: &[u32]) -> bool {
    records(tables).any(|cells| cells[record::BEGIN..=record::END].iter().any(|&bound| bound > OLD_GREATEST_END))
}

/// What is saved is lent, and the same of form 1, where there is room for it. The store is not, so that no time is lost over its cells. Nothing is, if the
/// tables are unsound.
fn saved(mut lent: Lent) -> Option<Lent> {
    if !is_done(twin::perform(&Call::Save, &mut lent)) {
        return None;
    }
    lent.old = form_1::image(&lent.tables);
    lent.store.clear();
    Some(lent)
}

/// What is saved moves down if it has room and the segments are enough, to document 01's image. Then one or the other is damaged.
pub fn of_saved(random: &mut Random, lent: Lent, heard: &mut Heard) {
    let Some(lent) = saved(lent) else { return };
    let (own, far) = (lent.tables[0], is_far(&lent.tables));
    let segments = about(random, own);
    let refusal = if segments < own {
        IMAGE_REFUSED
    } else if far {
        FAR_REFUSED
    } else {
        DONE
    };
    let (down, after) = there_and_back(random, &DOWN, lent.clone(), segments, heard);
    assert_eq!(down, refusal, "what is saved moves down otherwise: {own} segments over {segments}");
    assert!(down != DONE || after.old == lent.old, "what moved down is not document 01's image");
    for way in [UP, DOWN] {
        let (mut damaged, segments) = (lent.clone(), about(random, own));
        damage::image(random, (way.read)(&mut damaged));
        there_and_back(random, &way, damaged, segments, heard);
    }
}

/// "A lent image of the wrong length, either one, is 22, and 22 comes before 24." So is an unsound one that is read.
pub fn of_unsound(random: &mut Random, lent: Lent, heard: &mut Heard) {
    let lent = saved(lent).expect("unsound images are made of sound tables");
    for (way, unsound) in [(UP, UNSOUND_OLD_IMAGES), (DOWN, UNSOUND_IMAGES)] {
        let mut refused = |mut damaged: Lent| {
            let refusal = made(&(way.there)(SEGMENTS), &mut damaged, heard);
            assert_eq!(refusal, IMAGE_REFUSED, "an image that must not be moved");
        };
        for image in [way.read, way.written] {
            let mut damaged = lent.clone();
            put_wrong_length(random, image(&mut damaged));
            refused(damaged);
        }
        for damage in unsound {
            let mut damaged = lent.clone();
            damage(random, &mut damaged);
            refused(damaged);
        }
    }
}

/// Any shorter, one cell shorter or longer, or the other form's.
fn put_wrong_length(random: &mut Random, image: &mut Vec<u32>) {
    let length = image.len();
    let wrong = match random.below(4) {
        0 => random.below(length as u32) as usize,
        1 => length - 1,
        2 => length + 1,
        _ => IMAGE + OLD_IMAGE - length,
    };
    image.resize(wrong, 0);
}

/// "exactly if every begin and end is at most 16,777,215", of a file of each species at each place.
pub fn about_the_greatest_end(random: &mut Random, heard: &mut Heard) {
    for place in 0..PLACES {
        for begin in OLD_GREATEST_END - 2..=OLD_GREATEST_END + 1 {
            for end in begin..=OLD_GREATEST_END + 2 {
                let species = random.below(ELEMENTS.len() as u32);
                let mut tables = empty(SEGMENTS);
                file(&mut tables, place, short(place), 0, Content { species, begin, end, first: 0 });
                of_one_end(random, tables, end, heard);
            }
        }
    }
}

fn of_one_end(random: &mut Random, tables: Vec<u32>, end: u32, heard: &mut Heard) {
    let lent = saved(lent(CELLS, tables)).expect("a file that ends there is sound");
    let refusal = if end <= OLD_GREATEST_END { DONE } else { FAR_REFUSED };
    let (down, _) = there_and_back(random, &DOWN, lent, SEGMENTS, heard);
    assert_eq!(down, refusal, "the move down of an end at {end}");
}
