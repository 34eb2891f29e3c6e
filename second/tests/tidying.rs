//! "Tidying": "Listed segments numbered H or above, in rising order, go to the free ones below H, in rising order; no
//! other moves."

mod common;

use common::lists::check_cells;
use common::scattered::{all_cells, list_cell, make, remove, scattered_desk};
use common::{answer, check, fresh_desk, repeat};
use filing::rules::sizes::SEGMENT_CELLS;
use filing::text::answering::Desk;

fn check_first_segments(desk: &mut Desk, wanted: &[(usize, u32)]) {
    for &(place, segment) in wanted {
        check_cells(desk, "tables", list_cell(place), &[segment, 0]);
    }
}

/// The first two cells of each segment from 0 on; the second one is always 0 here.
fn check_first_cells(desk: &mut Desk, wanted: &[u32]) {
    for (segment, &value) in wanted.iter().enumerate() {
        check_cells(desk, "store", segment * SEGMENT_CELLS, &[value, 0]);
    }
}

#[test]
fn nothing_to_move() {
    let mut desk = fresh_desk(4 * SEGMENT_CELLS);
    check(&mut desk, &[("tidy", "done 0")]);
    for (name, element) in [("a", 10), ("b", 11), ("c", 12)] {
        make(&mut desk, name, element);
        let before = all_cells(&desk);
        check(&mut desk, &[("tidy", "done 0")]);
        assert!(all_cells(&desk) == before, "something has changed with {}", name);
    }
    // The highest listed segment becomes free, so what is left lies at 0 and 1.
    remove(&mut desk, "c");
    check(&mut desk, &[("tidy", "done 0"), ("free 0", "done 2")]);
}

#[test]
fn a_full_store() {
    let mut desk = fresh_desk(2 * SEGMENT_CELLS);
    check(&mut desk, &[("new 0 0 5", "done 0")]);
    repeat(&mut desk, 2 * SEGMENT_CELLS, "write 0 0 1 8", "done 0");
    check(&mut desk, &[("rename 0 0 a", "done 0"), ("close 0 0", "done 0"), ("free 0", "done 0"), ("tidy", "done 0")]);
}

#[test]
fn two_of_three_are_moved() {
    let mut desk = scattered_desk();
    check_first_segments(&mut desk, &[(1, 1), (3, 3), (4, 4)]);
    check(&mut desk, &[("free 0", "done 4"), ("tidy", "done 128"), ("free 0", "done 4")]);
    check_first_segments(&mut desk, &[(1, 1), (3, 0), (4, 2)]);
    // "Segments left behind keep their cells": here 3 and 4.
    check_first_cells(&mut desk, &[13, 11, 14, 13, 14, 0, 0]);
}

#[test]
fn every_other_cell_stays() {
    let mut desk = scattered_desk();
    // First and last cells of segments, the last one of all, and cells beyond.
    for cell in [0, 63, 127, 128, 191, 192, 255, 319, 320, 447, 448, 65_599] {
        let value = 1000 + cell;
        assert_eq!(answer(&mut desk, &format!("poke store {} {}", cell, value)), format!("cell {}", value));
    }
    let [mut store, mut tables] = all_cells(&desk);
    check(&mut desk, &[("tidy", "done 128")]);
    for (place, from, to) in [(3, 3, 0), (4, 4, 2)] {
        let from = from * SEGMENT_CELLS;
        store.copy_within(from..from + SEGMENT_CELLS, to * SEGMENT_CELLS);
        tables[list_cell(place)] = to as u32;
    }
    assert!(all_cells(&desk) == [store, tables]);
}

#[test]
fn the_second_time_nothing_is_moved() {
    let mut desk = scattered_desk();
    check(&mut desk, &[("tidy", "done 128")]);
    let before = all_cells(&desk);
    check(&mut desk, &[("tidy", "done 0"), ("tidy", "done 0")]);
    assert!(all_cells(&desk) == before);
}

/// "A taken segment is always the lowest-numbered free one", which is H then.
#[test]
fn the_next_segment_taken() {
    let mut desk = scattered_desk();
    check(&mut desk, &[("tidy", "done 128")]);
    make(&mut desk, "f", 15);
    check_first_segments(&mut desk, &[(0, 3)]);
    check_first_cells(&mut desk, &[13, 11, 14, 15, 14]);
}

/// Numbers put by hand: the lists of one file need not rise, and the rising order is that of all files together.
#[test]
fn a_list_that_does_not_rise() {
    let mut desk = fresh_desk(9 * SEGMENT_CELLS);
    check(&mut desk, &[("new 0 0 5", "done 0")]);
    repeat(&mut desk, 3 * SEGMENT_CELLS, "write 0 0 1 8", "done 0");
    check(&mut desk, &[("rename 0 0 a", "done 0"), ("close 0 0", "done 0")]);
    make(&mut desk, "b", 9);
    for (cell, segment) in [(list_cell(1), 7), (list_cell(0), 8), (list_cell(0) + 1, 3), (list_cell(0) + 2, 5)] {
        assert_eq!(answer(&mut desk, &format!("poke tables {} {}", cell, segment)), format!("cell {}", segment));
    }
    check(&mut desk, &[("tidy", "done 192")]);
    check_cells(&mut desk, "tables", list_cell(0), &[2, 3, 0, 0]);
    check_cells(&mut desk, "tables", list_cell(1), &[1, 0]);
}
