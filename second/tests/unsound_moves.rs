//! Images that are unsound by one thing alone are moved neither way, and 22 comes before 24.

mod common;

use common::images::{check_refused, image, poke, ready, record, Numbers, Way, DOWN, UP};
use filing::cells::form::{Form, FORM_2};
use filing::text::answering::Desk;

const OLD_LAST: u32 = 16_777_215;

/// The file "a" of user 2 with elements in two segments, and one of species 6.
fn sound_records() -> Vec<(usize, Numbers)> {
    vec![(0, record(10, 5, (64, 66), &[5, 6])), (3, record(11, 6, (1, 2), &[9]))]
}

/// As in this form, and where it can be, with a record beyond the old limit too.
fn with_and_without_a_wide_one(form: Form) -> Vec<Vec<(usize, Numbers)>> {
    let mut wide = sound_records();
    wide.push((63, record(12, 5, (OLD_LAST, OLD_LAST + 1), &[11])));
    match form == FORM_2 {
        true => vec![sound_records(), wide],
        false => vec![sound_records()],
    }
}

fn check_unsound(way: Way, cells: &[u32]) {
    let mut desk = Desk::new();
    ready(&mut desk, way, cells);
    for number in [12, 1024, u32::MAX] {
        check_refused(&mut desk, &way.line(number), "refused 22");
    }
}

/// Each change by itself, of the record at place 0.
fn check_changes(changes: &[&dyn Fn(&mut Numbers)]) {
    for way in [UP, DOWN] {
        for records in with_and_without_a_wide_one(way.from) {
            for change in changes {
                let mut changed = records.clone();
                change(&mut changed[0].1);
                check_unsound(way, &image(way.from, 12, &changed));
            }
        }
    }
}

/// A record's fields: used, 12 symbols, owner, private, species, begin, end, 32 segments.
#[test]
fn records_that_are_unsound() {
    check_changes(&[
        &|numbers| numbers[0] = 0,
        &|numbers| numbers[1] = 63,
        &|numbers| numbers[1] = 36,
        &|numbers| numbers[2] = 62,
        &|numbers| numbers[12] = 0,
        &|numbers| numbers[15] = 7,
        &|numbers| numbers[16] = 0,
        &|numbers| numbers[16] = 67,
        &|numbers| numbers[17] = 0,
        &|numbers| numbers[17] = 63,
        &|numbers| numbers[17] = 65,
        &|numbers| numbers[17] = 64 + 33 * 64,
        &|numbers| numbers[18] = 12,
        &|numbers| numbers[18] = 1023,
        &|numbers| numbers[18] = 6,
        &|numbers| numbers[19] = 9,
        &|numbers| numbers[20] = 7,
        &|numbers| numbers[49] = 1,
    ]);
}

/// "No two records of one owner have one name; no two public records have one name."
#[test]
fn names_that_clash() {
    for way in [UP, DOWN] {
        let twin = |owner: u32, private: u32| {
            let mut numbers = record(10, 3, (1, 1), &[]);
            (numbers[13], numbers[14]) = (owner, private);
            numbers
        };
        for (records, sound) in [
            ([twin(2, 1), twin(2, 0)], false),
            ([twin(7, 1), twin(7, 1)], false),
            ([twin(0, 0), twin(1, 0)], false),
            ([twin(0, 0), twin(1, 1)], true),
            ([twin(4, 1), twin(5, 1)], true),
        ] {
            let cells = image(way.from, 1, &[(0, records[0]), (63, records[1])]);
            match sound {
                true => {
                    let mut desk = Desk::new();
                    ready(&mut desk, way, &cells);
                    common::check(&mut desk, &[(&way.line(1), "done 0")]);
                }
                false => check_unsound(way, &cells),
            }
        }
    }
}

/// "13 zero bits" of cell 0; of form 2 the "16 zero bits at a record's end"; "an unused record is all zero".
#[test]
fn bits_called_zero() {
    for way in [UP, DOWN] {
        for records in with_and_without_a_wide_one(way.from) {
            let cells = image(way.from, 12, &records);
            let mut bits: Vec<(usize, u32)> = (0..13).map(|bit| (0, bit)).collect();
            let last_cells = [0, 3, 1, 62].map(|place| way.from.cells_of(place).end - 1);
            let spare_bits = 0..way.from.spare_bits;
            bits.extend(last_cells.into_iter().flat_map(|cell| spare_bits.clone().map(move |bit| (cell, bit))));
            let unused = [1, 62].into_iter().flat_map(|place| way.from.cells_of(place));
            bits.extend(unused.flat_map(|cell| [0, 13, 31].map(|bit| (cell, bit))));
            let mut desk = Desk::new();
            ready(&mut desk, way, &cells);
            for (cell, bit) in bits {
                poke(&mut desk, 0, cell, cells[cell] ^ 1 << bit);
                check_refused(&mut desk, &way.line(12), "refused 22");
                poke(&mut desk, 0, cell, cells[cell]);
            }
        }
    }
}

/// "segment numbers in range": in the range of the image's own number, not of the store's.
#[test]
fn segments_beyond_the_images_own() {
    for way in [UP, DOWN] {
        for (segments, sound) in [(9, false), (10, true), (11, true)] {
            let cells = image(way.from, segments, &sound_records());
            let mut desk = Desk::new();
            ready(&mut desk, way, &cells);
            match sound {
                true => common::check(&mut desk, &[(&way.line(1024), "done 0")]),
                false => check_refused(&mut desk, &way.line(1024), "refused 22"),
            }
        }
    }
}
