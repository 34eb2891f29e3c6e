//! Damaged cells: what is lent has a cell or two changed, a row twice, or another length.
use crate::calls::Lent;
use crate::random::Random;
use crate::twin::layout::{OPENINGS, PLACES};
use crate::{form_1, twin};

/// Tables that are mostly unsound.
pub fn tables(random: &mut Random, lent: &mut Lent) {
    match random.below(16) {
        0 => lent.tables.truncate(random.below(twin::TABLES as u32) as usize),
        1 => lent.tables.push(0),
        2 => lent.store.truncate(random.below(200) as usize),
        3 => lent.store.truncate(64 * lent.tables[0] as usize - 1),
        4 => copy_row(random, &mut lent.tables[1..OPENINGS], 50),
        5..=7 => copy_row(random, &mut lent.tables[OPENINGS..], 56),
        8..=11 => cells(random, &mut lent.tables),
        _ => {
            let row = OPENINGS + 56 * random.below(32) as usize;
            cells(random, &mut lent.tables[row..row + 24]);
        }
    }
}

/// A record to another place, or an opening to another entry.
fn copy_row(random: &mut Random, rows: &mut [u32], length: usize) {
    let number = (rows.len() / length) as u32;
    let (from, to) = (random.below(number) as usize, random.below(number) as usize);
    rows.copy_within(from * length..(from + 1) * length, to * length);
}

/// One cell or two become another's number, their neighbour number, or any.
fn cells(random: &mut Random, cells: &mut [u32]) {
    for _ in 0..1 + random.below(2) {
        let (cell, other) = (random.below(cells.len() as u32) as usize, random.below(cells.len() as u32) as usize);
        cells[cell] = match random.below(3) {
            0 => cells[other],
            1 => cells[cell] ^ 1,
            _ => random.cell(),
        };
    }
}

/// An image with one bit or two turned over, one third of them in cell 0, or of another length.
pub fn image(random: &mut Random, image: &mut Vec<u32>) {
    for _ in 0..1 + random.below(2) {
        let cell = if random.one_in(3) { 0 } else { random.below(image.len() as u32) as usize };
        image[cell] ^= 1 << random.below(32);
    }
    match random.below(8) {
        0 => image.truncate(random.below(image.len() as u32) as usize),
        1 => image.push(0),
        _ => {}
    }
}

/// What makes any image unsound, each by itself, of document 02's P6. The tables are those that were saved.
pub const UNSOUND_IMAGES: [fn(&mut Random, &mut Lent); 6] = [
    // "16 zero bits at a record's end", whether the record is used or not
    |random, lent| lent.image[15 * (1 + random.below(PLACES as u32) as usize)] ^= 1 << random.below(16),
    // "form number 2 in cell 0"
    |_, lent| put_form(&mut lent.image, 1),
    |random, lent| put_form(&mut lent.image, [0, 3, 6, 130, 255][random.below(5) as usize]),
    // "Load takes a 961-cell form 2 image only"
    |_, lent| lent.image.truncate(twin::OLD_IMAGE),
    |_, lent| lent.image = form_1::image(&lent.tables),
    |_, lent| {
        lent.image = form_1::image(&lent.tables);
        lent.image.resize(twin::IMAGE, 0);
    },
];

/// What makes any image of form 1 unsound, each by itself, of document 01's rules. The image buffer has the same of form 2.
pub const UNSOUND_OLD_IMAGES: [fn(&mut Random, &mut Lent); 6] = [
    // "form 8 bits (1)"
    |_, lent| put_form(&mut lent.old, 2),
    |random, lent| put_form(&mut lent.old, [0, 3, 5, 129, 255][random.below(5) as usize]),
    |_, lent| lent.old = lent.image[..twin::OLD_IMAGE].to_vec(),
    // "13 zero bits"
    |random, lent| lent.old[0] ^= 1 << random.below(13),
    // "1 to 1,024 segments"
    |_, lent| lent.old[0] &= !(0x7FF << 13),
    |random, lent| lent.old[0] |= 1 << 23 | (1 + random.below(1023)) << 13,
];

fn put_form(image: &mut [u32], form: u32) {
    image[0] = image[0] & 0xFF_FFFF | form << 24;
}
