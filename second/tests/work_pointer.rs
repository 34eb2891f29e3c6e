//! "Where the work pointer starts": "a work opening of an old file puts pointer 2 at the end value; new and read
//! openings stay as in 01."

mod common;

use common::lists::{check_cells, close_and_open, desk_with};
use common::{answer, check, fresh_desk, repeat};

#[test]
fn a_work_opening_stands_at_the_end() {
    let mut desk = desk_with(1, &[10, 20, 30]);
    close_and_open(&mut desk, "work");
    check(&mut desk, &[("begin 0 0", "done 1"), ("end 0 0", "done 4"), ("value 0 0 2", "done 4")]);
    check(&mut desk, &[("write 0 0 2 9", "refused 7"), ("next 0 0 2", "refused 7"), ("prev 0 0 2", "done 30")]);
    check(&mut desk, &[("value 0 0 2", "done 3"), ("end 0 0", "done 4"), ("prev 0 0 2", "done 20")]);
}

#[test]
fn runs_at_the_end() {
    let mut desk = desk_with(1, &[10, 20, 30]);
    close_and_open(&mut desk, "work");
    check(&mut desk, &[("writes 0 0 2 0", "rest 3 7"), ("nexts 0 0 2 0", "filled 0 7"), ("lend list0 0", "lent 0")]);
    check(&mut desk, &[("writes 0 0 2 0", "rest 0 0"), ("nexts 0 0 2 0", "filled 0 0"), ("value 0 0 2", "done 4")]);
}

/// "Caretakers open an old file to add to it": the pointer then stands at what was added.
#[test]
fn what_is_added_follows() {
    let mut desk = desk_with(2, &[10, 20, 30]);
    close_and_open(&mut desk, "work");
    check(&mut desk, &[("write 0 0 1 40", "done 0"), ("value 0 0 2", "done 4"), ("next 0 0 2", "done 40")]);
    check(&mut desk, &[("prev 0 0 2", "done 40"), ("write 0 0 2 50", "done 0"), ("write 0 0 2 9", "refused 7")]);
    check_cells(&mut desk, "store", 64, &[10, 20, 30, 50]);
}

#[test]
fn the_last_element_is_copied_before_it_is_replaced() {
    let mut desk = desk_with(2, &[10, 20, 30]);
    close_and_open(&mut desk, "work");
    check(&mut desk, &[("prev 0 0 2", "done 30"), ("write 0 0 2 9", "done 0"), ("free 0", "done 0")]);
    check_cells(&mut desk, "store", 0, &[10, 20, 30]);
    check_cells(&mut desk, "store", 64, &[10, 20, 9]);
}

#[test]
fn an_own_pointer_takes_the_end_value() {
    let mut desk = desk_with(1, &[10, 20, 30]);
    close_and_open(&mut desk, "work");
    check(&mut desk, &[("pointer 0 0 2", "done 3"), ("value 0 0 3", "done 4"), ("prev 0 0 3", "done 30")]);
    check(&mut desk, &[("value 0 0 2", "done 4")]);
}

/// Every work opening starts at its record's end, whatever an earlier one did.
#[test]
fn opened_again_after_abandon_and_close() {
    let mut desk = desk_with(2, &[10, 20, 30]);
    close_and_open(&mut desk, "work");
    check(&mut desk, &[("write 0 0 1 40", "done 0"), ("abandon 0 0", "done 0"), ("work 0 0 a", "done 0")]);
    check(&mut desk, &[("value 0 0 2", "done 4"), ("write 0 0 1 40", "done 0"), ("close 0 0", "done 0")]);
    check(&mut desk, &[("work 0 0 a", "done 0"), ("value 0 0 2", "done 5"), ("prev 0 0 2", "done 40")]);
}

#[test]
fn a_read_opening_stands_at_the_begin() {
    let mut desk = desk_with(1, &[10, 20, 30]);
    close_and_open(&mut desk, "read");
    check(&mut desk, &[("value 0 0 2", "done 1"), ("prev 0 0 2", "refused 6"), ("next 0 0 2", "done 10")]);
}

#[test]
fn so_does_anothers_reading_of_a_public_file() {
    let mut desk = desk_with(1, &[10, 20, 30]);
    check(&mut desk, &[("rename 0 0 a", "done 0"), ("public 0 0", "done 0"), ("read 1 0 a", "done 0")]);
    check(&mut desk, &[("value 1 0 2", "done 1"), ("prev 1 0 2", "refused 6"), ("next 1 0 2", "done 10")]);
}

#[test]
fn a_new_opening_stands_at_the_begin() {
    let mut desk = fresh_desk(64);
    check(&mut desk, &[("new 0 0 5", "done 0"), ("value 0 0 2", "done 1"), ("write 0 0 1 10", "done 0")]);
    check(&mut desk, &[("value 0 0 2", "done 1"), ("prev 0 0 2", "refused 6"), ("next 0 0 2", "done 10")]);
}

/// Begin and end are one place, be it 1 or another.
#[test]
fn an_empty_old_file() {
    for emptied in [0, 2] {
        for word in ["work", "read"] {
            let mut desk = desk_with(1, &vec![10; emptied]);
            repeat(&mut desk, emptied, "next 0 0 0", "done 10");
            close_and_open(&mut desk, word);
            let place = format!("done {}", 1 + emptied);
            check(&mut desk, &[("begin 0 0", &place), ("end 0 0", &place), ("value 0 0 2", &place)]);
            check(&mut desk, &[("next 0 0 2", "refused 7"), ("prev 0 0 2", "refused 6")]);
        }
    }
}

#[test]
fn a_begin_that_is_not_1() {
    for (word, place) in [("work", "done 4"), ("read", "done 2")] {
        let mut desk = desk_with(1, &[10, 20, 30]);
        check(&mut desk, &[("next 0 0 0", "done 10")]);
        close_and_open(&mut desk, word);
        check(&mut desk, &[("begin 0 0", "done 2"), ("end 0 0", "done 4"), ("value 0 0 2", place)]);
    }
}

#[test]
fn the_greatest_end() {
    let mut desk = fresh_desk(64);
    // The end and the begin of user 0's entry 0 are the tables' cells 3206 and 3205.
    check(&mut desk, &[("new 0 0 5", "done 0"), ("poke tables 3206 4294967294", "cell 4294967294")]);
    check(&mut desk, &[("poke tables 3205 4294967294", "cell 4294967294"), ("write 0 0 1 7", "done 0")]);
    close_and_open(&mut desk, "work");
    check(&mut desk, &[("value 0 0 2", "done 4294967295"), ("write 0 0 2 9", "refused 7"), ("prev 0 0 2", "done 7")]);
}

/// "Reset puts pointer 2 at the begin value", and nothing else in the tables differs from an opening that stood there.
#[test]
fn a_reset_leads_to_the_old_place() {
    let mut desk = desk_with(2, &[10, 20, 30]);
    check(&mut desk, &[("next 0 0 0", "done 10")]);
    close_and_open(&mut desk, "work");
    let at_the_end = answer(&mut desk, "sum tables");
    // The work pointer of user 0's entry 0 is the tables' cell 3207.
    check(&mut desk, &[("peek tables 3207", "cell 4"), ("poke tables 3207 2", "cell 2")]);
    let at_the_begin = answer(&mut desk, "sum tables");
    check(&mut desk, &[("poke tables 3207 4", "cell 4"), ("sum tables", &at_the_end)]);
    check(&mut desk, &[("reset 0 0", "done 0"), ("sum tables", &at_the_begin), ("value 0 0 2", "done 2")]);
    check(&mut desk, &[("next 0 0 2", "done 20"), ("write 0 0 2 9", "done 0"), ("next 0 0 2", "refused 7")]);
}
