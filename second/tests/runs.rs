//! "Runs of elements", as small histories: whole ones, and ones that stop in the middle.

mod common;

use common::lists::{check_cells, close_and_open, desk_with, put_into_list0};
use common::{answer, check, fresh_desk};
use filing::text::answering::Desk;

#[test]
fn a_whole_run_and_back() {
    let mut desk = desk_with(2, &[10, 20, 30]);
    check_cells(&mut desk, "store", 0, &[10, 20, 30, 0]);
    check(&mut desk, &[("end 0 0", "done 4"), ("lend list1 3", "lent 3"), ("nexts 0 0 2 1", "filled 3 0")]);
    check_cells(&mut desk, "list1", 0, &[10, 20, 30, 0]);
    check(&mut desk, &[("value 0 0 2", "done 4"), ("end 0 0", "done 4")]);
}

#[test]
fn stopped_beyond_the_end() {
    let mut desk = desk_with(2, &[1, 2, 3]);
    put_into_list0(&mut desk, &[7, 8, 9, 10, 11]);
    check(&mut desk, &[("next 0 0 2", "done 1"), ("writes 0 0 2 0", "rest 3 7"), ("value 0 0 2", "done 4")]);
    check_cells(&mut desk, "store", 0, &[1, 7, 8, 0]);
    check(&mut desk, &[("writes 0 0 2 0", "rest 5 7"), ("nexts 0 0 1 0", "filled 0 7")]);
}

#[test]
fn a_fill_leaves_unreached_places() {
    let mut desk = desk_with(2, &[1, 2, 3]);
    put_into_list0(&mut desk, &[90, 91, 92, 93, 94]);
    check(&mut desk, &[("next 0 0 2", "done 1"), ("nexts 0 0 2 0", "filled 2 7")]);
    check_cells(&mut desk, "list0", 0, &[2, 3, 92, 93, 94]);
    // Cells that are not lent are not reached either.
    check(&mut desk, &[("lend list0 1", "lent 1"), ("reset 0 0", "done 0"), ("nexts 0 0 2 0", "filled 1 0")]);
    check_cells(&mut desk, "list0", 0, &[1, 3, 92]);
}

#[test]
fn stopped_for_no_room() {
    let mut desk = desk_with(2, &[5; 100]);
    check(&mut desk, &[("lend list0 40", "lent 40"), ("writes 0 0 1 0", "rest 12 9"), ("end 0 0", "done 129")]);
    check(&mut desk, &[("free 0", "done 0"), ("writes 0 0 1 0", "rest 40 9")]);
}

#[test]
fn stopped_at_a_33rd_segment() {
    for segments in [32, 40] {
        let mut desk = fresh_desk(64 * segments);
        check(&mut desk, &[("new 0 0 5", "done 0"), ("lend list1 2112", "lent 2112"), ("writes 0 0 1 1", "rest 64 8")]);
        check(&mut desk, &[("claim 0 0", "done 2048"), ("writes 0 0 1 1", "rest 2112 8")]);
    }
}

#[test]
fn stopped_where_positions_are_used_up() {
    let mut desk = fresh_desk(640);
    // The end and the begin of user 0's entry 0 are the tables' cells 3206 and 3205.
    check(&mut desk, &[("new 0 0 5", "done 0"), ("poke tables 3206 4294967293", "cell 4294967293")]);
    check(&mut desk, &[("poke tables 3205 4294967293", "cell 4294967293"), ("writes 0 0 1 0", "rest 38 10")]);
    check(&mut desk, &[("end 0 0", "done 4294967295"), ("writes 0 0 1 0", "rest 40 10")]);
}

#[test]
fn stopped_below_the_begin() {
    let mut desk = desk_with(2, &[1, 2, 3]);
    check(&mut desk, &[("next 0 0 0", "done 1"), ("writes 0 0 2 0", "rest 3 6"), ("nexts 0 0 2 0", "filled 0 6")]);
}

#[test]
fn a_run_through_the_begin_drops_elements() {
    let mut desk = desk_with(2, &[1, 2, 3]);
    let before = answer(&mut desk, "sum store");
    check(&mut desk, &[("lend list0 2", "lent 2"), ("writes 0 0 0 0", "rest 0 0"), ("begin 0 0", "done 3")]);
    check(&mut desk, &[("writes 0 0 0 0", "rest 1 7"), ("begin 0 0", "done 4"), ("free 0", "done 2")]);
    check(&mut desk, &[("sum store", &before)]);
}

#[test]
fn a_fill_through_the_begin_takes_elements_out() {
    let mut desk = desk_with(2, &[1, 2, 3]);
    check(&mut desk, &[("lend list1 2", "lent 2"), ("nexts 0 0 0 1", "filled 2 0"), ("begin 0 0", "done 3")]);
    check_cells(&mut desk, "list1", 0, &[1, 2]);
    check(&mut desk, &[("nexts 0 0 0 1", "filled 1 7"), ("free 0", "done 2")]);
    check_cells(&mut desk, "list1", 0, &[3, 2]);
}

#[test]
fn a_run_over_the_border_of_a_segment() {
    let mut desk = desk_with(3, &[8; 62]);
    put_into_list0(&mut desk, &[1, 2, 3, 4]);
    check(&mut desk, &[("free 0", "done 2"), ("writes 0 0 1 0", "rest 0 0"), ("free 0", "done 1")]);
    check_cells(&mut desk, "store", 61, &[8, 1, 2, 3, 4, 0]);
    check(&mut desk, &[("pointer 0 0 1", "done 3")]);
    for element in ["done 4", "done 3", "done 2", "done 1"] {
        check(&mut desk, &[("prev 0 0 3", element)]);
    }
    check(&mut desk, &[("lend list1 5", "lent 5"), ("nexts 0 0 3 1", "filled 4 7")]);
    check_cells(&mut desk, "list1", 0, &[1, 2, 3, 4, 0]);
}

/// "before a write into a shared segment, that segment is copied to a taken one": here two of them, in one run.
#[test]
fn a_run_over_two_shared_segments() {
    let mut desk = desk_with(4, &[8; 66]);
    close_and_open(&mut desk, "work");
    check(&mut desk, &[("reset 0 0", "done 0")]);
    check(&mut desk, &[("lend list1 66", "lent 66"), ("writes 0 0 2 1", "rest 0 0"), ("free 0", "done 0")]);
    check_cells(&mut desk, "store", 0, &[8; 66]);
    check_cells(&mut desk, "store", 128, &[0; 66]);
    check(&mut desk, &[("abandon 0 0", "done 0"), ("free 0", "done 2")]);
}

#[test]
fn no_room_for_the_second_copy() {
    let mut desk = desk_with(3, &[8; 66]);
    close_and_open(&mut desk, "work");
    check(&mut desk, &[("reset 0 0", "done 0")]);
    check(&mut desk, &[("lend list1 66", "lent 66"), ("writes 0 0 2 1", "rest 2 9"), ("value 0 0 2", "done 65")]);
    check_cells(&mut desk, "store", 64, &[8, 8]);
}

#[test]
fn the_list_buffers() {
    let mut desk = Desk::new();
    for list in ["list0", "list1"] {
        check_cells(&mut desk, list, 0, &[0; 2112]);
        assert_eq!(answer(&mut desk, &format!("poke {} 39 5", list)), "cell 5");
        assert_eq!(answer(&mut desk, &format!("poke {} 40 6", list)), "cell 6");
        assert_eq!(answer(&mut desk, &format!("sum {}", list)), "sum 5", "forty cells are lent at first");
        assert_eq!(answer(&mut desk, &format!("lend {} 41", list)), "lent 41");
        assert_eq!(answer(&mut desk, &format!("sum {}", list)), "sum 161");
        assert_eq!(answer(&mut desk, &format!("lend {} 2112", list)), "lent 2112");
    }
    check(&mut desk, &[("writes 0 0 1 0", "rest 2112 20"), ("nexts 0 0 1 1", "filled 0 20")]);
}
