//! "With nothing open (else refusal 14)", and before that refusal 20: nothing has changed after either.

mod common;

use common::scattered::{all_cells, scattered_desk};
use common::{answer, check};
use filing::cells::fields::TABLES_LENGTH;
use filing::rules::sizes::SEGMENT_CELLS;
use filing::text::answering::Desk;

const NOT_NOW: &str = "refused 14";
const UNFIT: &str = "refused 20";

fn check_refused(desk: &mut Desk, wanted: &str) {
    let before = all_cells(desk);
    check(desk, &[("tidy", wanted)]);
    assert!(all_cells(desk) == before, "a refused call has changed something");
}

/// After this opening tidying is refused; after its end it is done.
fn check_hindered_by(open: &str, end: &str) {
    let mut desk = scattered_desk();
    check(&mut desk, &[(open, "done 0")]);
    check_refused(&mut desk, NOT_NOW);
    check(&mut desk, &[(end, "done 0"), ("tidy", "done 128")]);
}

#[test]
fn not_while_a_file_is_read() {
    check_hindered_by("read 0 2 b", "close 0 2");
    check_hindered_by("read 0 0 e", "abandon 0 0");
}

#[test]
fn not_while_a_file_is_worked_on() {
    check_hindered_by("work 0 3 d", "close 0 3");
}

#[test]
fn not_while_an_empty_new_file_is_open() {
    check_hindered_by("new 0 0 5", "close 0 0");
    check_hindered_by("new 7 3 0", "abandon 7 3");
}

/// The operator waits for every user, also where there is nothing to move.
#[test]
fn not_while_another_reads() {
    let mut desk = scattered_desk();
    check(&mut desk, &[("work 0 0 b", "done 0"), ("public 0 0", "done 0"), ("read 5 1 b", "done 0")]);
    check_refused(&mut desk, NOT_NOW);
    check(&mut desk, &[("close 5 1", "done 0"), ("tidy", "done 128"), ("read 5 1 b", "done 0")]);
    check_refused(&mut desk, NOT_NOW);
    check(&mut desk, &[("next 5 1 2", "done 11")]);
}

/// What 20 stands for: "tables of wrong length or unsound, or store under 64 cells".
fn check_unfit_in_every_way(desk: &mut Desk) {
    for length in [0, TABLES_LENGTH - 1, TABLES_LENGTH + 1] {
        answer(desk, &format!("lend tables {}", length));
        check_refused(desk, UNFIT);
    }
    answer(desk, &format!("lend tables {}", TABLES_LENGTH));
    // The number of segments must fit the store: one cell less than seven segments is too few.
    for length in [0, SEGMENT_CELLS - 1, SEGMENT_CELLS, 7 * SEGMENT_CELLS - 1] {
        answer(desk, &format!("lend store {}", length));
        check_refused(desk, UNFIT);
    }
    check(desk, &[("lend store 65600", "lent 65600"), ("poke tables 0 1025", "cell 1025")]);
    check_refused(desk, UNFIT);
    check(desk, &[("poke tables 0 7", "cell 7")]);
}

#[test]
fn not_with_unfit_tables_or_store() {
    let mut desk = scattered_desk();
    check_unfit_in_every_way(&mut desk);
    check(&mut desk, &[("tidy", "done 128")]);
    check_refused(&mut Desk::new(), UNFIT);
}

#[test]
fn unfit_comes_before_not_now() {
    let mut desk = scattered_desk();
    check(&mut desk, &[("new 7 3 5", "done 0")]);
    check_unfit_in_every_way(&mut desk);
    check_refused(&mut desk, NOT_NOW);
}
