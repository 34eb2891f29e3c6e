//! "degrees below zero": "species 6: signed temperatures from -32,768 to 32,767 in 16 bits, the top bit counting minus
//! 32,768, E = 128", by "its own write and next and prev that take and give a signed number".

mod common;

use common::lists::{check_cells, close_and_open};
use common::{answer, check, fresh_desk, repeat};
use filing::text::answering::Desk;

/// A store of so many segments with a new file of species 6 in user 0's entry 0, which holds these elements.
fn desk_of(segments: usize, elements: &[i32]) -> Desk {
    let mut desk = fresh_desk(64 * segments);
    check(&mut desk, &[("new 0 0 6", "done 0")]);
    for element in elements {
        check(&mut desk, &[(&format!("write_signed 0 0 1 {}", element), "done 0")]);
    }
    desk
}

fn check_refused(desk: &mut Desk, line: &str, wanted: &str) {
    let sums = |desk: &mut Desk| ["sum store", "sum tables"].map(|line| answer(desk, line));
    let before = sums(desk);
    check(desk, &[(line, wanted)]);
    assert_eq!(sums(desk), before, "{}", line);
}

#[test]
fn both_ends_and_just_beyond() {
    let mut desk = desk_of(1, &[-32_768, 32_767]);
    for number in [-32_769, 32_768, -65_536, 65_535, 65_536, -65_537, i32::MIN, i32::MAX] {
        check_refused(&mut desk, &format!("write_signed 0 0 1 {}", number), "refused 23");
    }
    check_cells(&mut desk, "store", 0, &[0x8000_7FFF, 0]);
    check(&mut desk, &[("next_signed 0 0 2", "done -32768"), ("next_signed 0 0 2", "done 32767")]);
    check(&mut desk, &[("next_signed 0 0 2", "refused 7"), ("prev_signed 0 0 2", "done 32767")]);
    check(&mut desk, &[("prev_signed 0 0 2", "done -32768"), ("prev_signed 0 0 2", "refused 6")]);
}

#[test]
fn about_zero() {
    let mut desk = desk_of(1, &[-1, 0, 1, -2]);
    check_cells(&mut desk, "store", 0, &[0xFFFF_0000, 0x0001_FFFE, 0]);
    for wanted in ["done -2", "done 1", "done 0", "done -1", "refused 6"] {
        check(&mut desk, &[("prev_signed 0 0 1", wanted)]);
    }
}

/// "digits with or without one `-` before them"; minus nought is nought.
#[test]
fn numbers_as_they_are_written() {
    let mut desk = desk_of(1, &[]);
    for line in ["write_signed 0 0 1 -0", "write_signed 0 0 1 -0000000005", "write_signed 0 0 1 0000000005"] {
        check(&mut desk, &[(line, "done 0")]);
    }
    for wanted in ["done 0", "done -5", "done 5"] {
        check(&mut desk, &[("next_signed 0 0 2", wanted)]);
    }
    assert!(answer(&mut desk, "write_signed 0 0 1 --5").starts_with('?'));
    assert!(answer(&mut desk, "write_signed 0 0 1 2147483648").starts_with('?'));
    check(&mut desk, &[("end 0 0", "done 4")]);
}

/// "the top bit counting minus 32,768": cells written by others say what their bits say.
#[test]
fn poked_cells() {
    let mut desk = desk_of(1, &[5, 5, 5, 5]);
    check(&mut desk, &[("poke store 0 4294901761", "cell 4294901761"), ("poke store 1 2147516415", "cell 2147516415")]);
    for wanted in ["done -1", "done 1", "done -32768", "done 32767"] {
        check(&mut desk, &[("next_signed 0 0 2", wanted)]);
    }
}

#[test]
fn a_hundred_and_twenty_eight_in_a_segment() {
    let mut desk = desk_of(2, &[]);
    repeat(&mut desk, 128, "write_signed 0 0 1 -3", "done 0");
    check(&mut desk, &[("claim 0 0", "done 128"), ("free 0", "done 1"), ("write_signed 0 0 1 -4", "done 0")]);
    check(&mut desk, &[("claim 0 0", "done 256"), ("free 0", "done 0"), ("species 0 0", "done 6")]);
    check_cells(&mut desk, "store", 63, &[0xFFFD_FFFD, 0xFFFC_0000, 0]);
    check(&mut desk, &[("prev_signed 0 0 1", "done -4"), ("claim 0 0", "done 128"), ("free 0", "done 1")]);
}

#[test]
fn through_the_begin() {
    let mut desk = desk_of(1, &[-7, -8, -9]);
    check_refused(&mut desk, "write_signed 0 0 0 32768", "refused 23");
    check_refused(&mut desk, "write_signed 0 0 0 -32769", "refused 23");
    let store = answer(&mut desk, "sum store");
    check(&mut desk, &[("write_signed 0 0 0 -32768", "done 0"), ("begin 0 0", "done 2"), ("sum store", &store)]);
    check(&mut desk, &[("next_signed 0 0 0", "done -8"), ("next_signed 0 0 0", "done -9"), ("free 0", "done 1")]);
    check_refused(&mut desk, "write_signed 0 0 0 32768", "refused 7");
}

#[test]
fn a_position_replaced() {
    let mut desk = desk_of(1, &[-7, -8, -9]);
    check(&mut desk, &[("next_signed 0 0 2", "done -7"), ("pointer 0 0 2", "done 3")]);
    check_refused(&mut desk, "write_signed 0 0 3 32768", "refused 23");
    check(&mut desk, &[("write_signed 0 0 3 -32768", "done 0"), ("value 0 0 3", "done 3")]);
    check(&mut desk, &[("next_signed 0 0 2", "done -32768"), ("next_signed 0 0 2", "done -9")]);
    check_cells(&mut desk, "store", 0, &[0xFFF9_8000, 0xFFF7_0000]);
}

/// Closed, opened for work and changed: the record's segment is copied first.
#[test]
fn shared_until_changed() {
    let mut desk = desk_of(2, &[-7, -8]);
    close_and_open(&mut desk, "work");
    check(&mut desk, &[("value 0 0 2", "done 3"), ("prev_signed 0 0 2", "done -8")]);
    check_refused(&mut desk, "write_signed 0 0 2 -40000", "refused 23");
    check(&mut desk, &[("write_signed 0 0 2 9", "done 0"), ("free 0", "done 0")]);
    check_cells(&mut desk, "store", 0, &[0xFFF9_FFF8]);
    check_cells(&mut desk, "store", 64, &[0xFFF9_0009]);
    check(&mut desk, &[("abandon 0 0", "done 0"), ("read 0 0 a", "done 0"), ("next_signed 0 0 2", "done -7")]);
    check(&mut desk, &[("next_signed 0 0 2", "done -8"), ("next_signed 0 0 2", "refused 7")]);
}

/// 4, 5, 6 and 7 before 23, and 10, 8 and 9 after it.
#[test]
fn the_order_of_refusals() {
    let mut desk = desk_of(1, &[-7, -8]);
    check(&mut desk, &[("pointer 0 0 1", "done 3"), ("next_signed 0 0 0", "done -7")]);
    check_refused(&mut desk, "write_signed 0 0 4 99999", "refused 4");
    check_refused(&mut desk, "write_signed 0 0 2 99999", "refused 6");
    check_refused(&mut desk, "write_signed 0 0 3 99999", "refused 7");
    close_and_open(&mut desk, "read");
    check_refused(&mut desk, "write_signed 0 0 1 99999", "refused 5");
    check(
        &mut desk,
        &[("next_signed 0 0 0", "refused 5"), ("prev_signed 0 0 1", "refused 5"), ("close 0 0", "done 0")],
    );
    check(&mut desk, &[("work 0 0 a", "done 0"), ("write_signed 0 0 1 -32769", "refused 23")]);
    check(&mut desk, &[("write_signed 0 0 1 -32768", "refused 9"), ("write_signed 0 0 0 1", "done 0")]);
}

#[test]
fn positions_used_up_and_a_33rd_segment() {
    let mut desk = desk_of(32, &[]);
    // The end and the begin of user 0's entry 0 are the tables' cells 3206 and 3205.
    check(
        &mut desk,
        &[("poke tables 3206 4294967295", "cell 4294967295"), ("poke tables 3205 4294967295", "cell 4294967295")],
    );
    check(&mut desk, &[("write_signed 0 0 1 32768", "refused 23"), ("write_signed 0 0 1 32767", "refused 10")]);
    let mut desk = desk_of(32, &[]);
    repeat(&mut desk, 32 * 128, "write_signed 0 0 1 -1", "done 0");
    check(&mut desk, &[("write_signed 0 0 1 32768", "refused 23"), ("write_signed 0 0 1 32767", "refused 8")]);
}
