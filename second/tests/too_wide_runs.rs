//! A run "stops at the first element that the single call would refuse", be it for a number too wide for its species.

mod common;

use common::lists::{check_cells, close_and_open, put_into_list0};
use common::{answer, check, fresh_desk};
use filing::text::answering::Desk;

/// So many segments, and a new file of species 3 (eight bits) that holds these elements.
fn desk_of_bytes(segments: usize, elements: &[u32]) -> Desk {
    let mut desk = fresh_desk(64 * segments);
    check(&mut desk, &[("new 0 0 3", "done 0")]);
    put_into_list0(&mut desk, elements);
    check(&mut desk, &[("writes 0 0 1 0", "rest 0 0")]);
    desk
}

#[test]
fn stopped_in_the_middle_of_an_append() {
    let mut desk = desk_of_bytes(1, &[]);
    put_into_list0(&mut desk, &[1, 255, 256, 3]);
    check(&mut desk, &[("writes 0 0 1 0", "rest 2 23"), ("end 0 0", "done 3")]);
    check_cells(&mut desk, "store", 0, &[0x01FF_0000, 0]);
    check_cells(&mut desk, "list0", 0, &[1, 255, 256, 3]);
}

#[test]
fn stopped_at_the_first_and_at_the_last() {
    let mut desk = desk_of_bytes(1, &[]);
    put_into_list0(&mut desk, &[300, 1]);
    let before = ["sum store", "sum tables"].map(|line| answer(&mut desk, line));
    check(&mut desk, &[("writes 0 0 1 0", "rest 2 23")]);
    assert_eq!(["sum store", "sum tables"].map(|line| answer(&mut desk, line)), before);
    put_into_list0(&mut desk, &[1, 4_294_967_295]);
    check(&mut desk, &[("writes 0 0 1 0", "rest 1 23"), ("end 0 0", "done 2"), ("free 0", "done 0")]);
}

#[test]
fn stopped_among_replaced_elements() {
    let mut desk = desk_of_bytes(1, &[1, 2, 3]);
    put_into_list0(&mut desk, &[7, 8, 256, 9]);
    check(&mut desk, &[("writes 0 0 2 0", "rest 2 23"), ("value 0 0 2", "done 3"), ("end 0 0", "done 4")]);
    check_cells(&mut desk, "store", 0, &[0x0708_0300]);
}

/// 7 comes before 23: beyond the end the number is not looked at.
#[test]
fn stopped_beyond_the_end_before() {
    let mut desk = desk_of_bytes(1, &[1, 2]);
    put_into_list0(&mut desk, &[7, 8, 256, 9]);
    check(&mut desk, &[("writes 0 0 2 0", "rest 2 7"), ("value 0 0 2", "done 3")]);
}

#[test]
fn stopped_among_dropped_elements() {
    let mut desk = desk_of_bytes(1, &[1, 2, 3]);
    put_into_list0(&mut desk, &[0, 300, 0]);
    check(&mut desk, &[("writes 0 0 0 0", "rest 2 23"), ("begin 0 0", "done 2"), ("next 0 0 0", "done 2")]);
}

/// The 256 elements of the one segment are full after the first number of the list.
#[test]
fn stopped_by_23_and_not_by_9() {
    let mut desk = desk_of_bytes(1, &[5; 255]);
    put_into_list0(&mut desk, &[1, 256, 2]);
    check(&mut desk, &[("writes 0 0 1 0", "rest 2 23"), ("end 0 0", "done 257")]);
    put_into_list0(&mut desk, &[2, 256]);
    check(&mut desk, &[("writes 0 0 1 0", "rest 2 9")]);
}

#[test]
fn stopped_by_23_and_not_by_10() {
    let mut desk = desk_of_bytes(1, &[]);
    // The end and the begin of user 0's entry 0 are the tables' cells 3206 and 3205.
    check(
        &mut desk,
        &[("poke tables 3206 4294967294", "cell 4294967294"), ("poke tables 3205 4294967294", "cell 4294967294")],
    );
    put_into_list0(&mut desk, &[1, 256, 2]);
    check(&mut desk, &[("writes 0 0 1 0", "rest 2 23"), ("end 0 0", "done 4294967295")]);
    put_into_list0(&mut desk, &[2, 256]);
    check(&mut desk, &[("writes 0 0 1 0", "rest 2 10")]);
}

/// An empty list has no number that could be too wide; without the permit 5 comes before 23.
#[test]
fn what_is_not_stopped_by_23() {
    let mut desk = desk_of_bytes(1, &[1]);
    put_into_list0(&mut desk, &[300]);
    check(&mut desk, &[("lend list0 0", "lent 0"), ("writes 0 0 1 0", "rest 0 0"), ("lend list0 1", "lent 1")]);
    close_and_open(&mut desk, "read");
    check(
        &mut desk,
        &[("writes 0 0 1 0", "rest 1 5"), ("writes 0 0 9 0", "rest 1 4"), ("nexts 0 0 2 0", "filled 1 0")],
    );
    check_cells(&mut desk, "list0", 0, &[1]);
}

/// What a wide file held is too wide for a narrow one.
#[test]
fn copied_from_a_wider_file() {
    let mut desk = desk_of_bytes(2, &[]);
    put_into_list0(&mut desk, &[10, 70_000, 20]);
    check(&mut desk, &[("new 0 1 5", "done 0"), ("writes 0 1 1 0", "rest 0 0"), ("lend list1 3", "lent 3")]);
    check(&mut desk, &[("nexts 0 1 2 1", "filled 3 0"), ("writes 0 0 1 1", "rest 2 23"), ("prev 0 0 1", "done 10")]);
}
