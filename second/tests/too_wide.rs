//! "No silent cutting": "A number too wide for its species ... is now refused, number 23, after 7 and before 10, through
//! any pointer". What is signed is in `signed.rs`.

mod common;

use common::lists::{close_and_open, put_into_list0};
use common::{answer, check, fresh_desk};
use filing::text::answering::Desk;

/// A store of so many segments with a new file of this species in user 0's entry 0, which holds these elements.
fn desk_of(species: u32, segments: usize, elements: &[u32]) -> Desk {
    let mut desk = fresh_desk(64 * segments);
    check(&mut desk, &[(&format!("new 0 0 {}", species), "done 0")]);
    put_into_list0(&mut desk, elements);
    check(&mut desk, &[("writes 0 0 1 0", "rest 0 0")]);
    desk
}

/// "Every refusal leaves store, tables and image buffer as they stood."
fn check_refused(desk: &mut Desk, line: &str, wanted: &str) {
    let sums = |desk: &mut Desk| ["sum store", "sum tables", "sum list0"].map(|line| answer(desk, line));
    let before = sums(desk);
    check(desk, &[(line, wanted)]);
    assert_eq!(sums(desk), before, "{}", line);
}

#[test]
fn the_widest_number_of_each_species() {
    let widest: [(u32, u32); 5] = [(0, 1), (1, 3), (2, 15), (3, 255), (4, 65_535)];
    for (species, number) in widest {
        let mut desk = desk_of(species, 1, &[]);
        for too_wide in [number + 1, number + 2, 2 * number + 2, 2_147_483_648, 4_294_967_295] {
            check_refused(&mut desk, &format!("write 0 0 1 {}", too_wide), "refused 23");
        }
        check(&mut desk, &[(&format!("write 0 0 1 {}", number), "done 0"), ("write 0 0 1 0", "done 0")]);
        check(&mut desk, &[("next 0 0 2", &format!("done {}", number)), ("next 0 0 2", "done 0")]);
        check(&mut desk, &[("next 0 0 2", "refused 7")]);
    }
}

#[test]
fn thirty_two_bits_take_every_number() {
    let mut desk = desk_of(5, 1, &[]);
    check(&mut desk, &[("write 0 0 1 4294967295", "done 0"), ("prev 0 0 1", "done 4294967295")]);
}

/// "Write through pointer 0 is judged too."
#[test]
fn through_the_begin() {
    let mut desk = desk_of(3, 1, &[10, 20]);
    check_refused(&mut desk, "write 0 0 0 256", "refused 23");
    check(&mut desk, &[("write 0 0 0 255", "done 0"), ("begin 0 0", "done 2"), ("next 0 0 0", "done 20")]);
}

#[test]
fn through_the_work_pointer_and_an_own_one() {
    let mut desk = desk_of(2, 1, &[10, 11, 12]);
    check(&mut desk, &[("next 0 0 2", "done 10"), ("pointer 0 0 2", "done 3")]);
    check_refused(&mut desk, "write 0 0 2 16", "refused 23");
    check_refused(&mut desk, "write 0 0 3 16", "refused 23");
    check(&mut desk, &[("write 0 0 3 15", "done 0"), ("value 0 0 3", "done 3"), ("next 0 0 2", "done 15")]);
}

/// 1, 2, 4, 5, 6 and 7 come before.
#[test]
fn after_the_earlier_refusals() {
    let mut desk = desk_of(3, 2, &[10, 20]);
    check_refused(&mut desk, "write 8 4 9 256", "refused 1");
    check_refused(&mut desk, "write 0 4 9 256", "refused 2");
    check_refused(&mut desk, "write 0 1 9 256", "refused 2");
    check_refused(&mut desk, "write 0 0 3 256", "refused 4");
    check(&mut desk, &[("pointer 0 0 1", "done 3"), ("next 0 0 0", "done 10")]);
    check_refused(&mut desk, "write 0 0 2 256", "refused 6");
    check_refused(&mut desk, "write 0 0 3 256", "refused 7");
    check(&mut desk, &[("next 0 0 0", "done 20")]);
    check_refused(&mut desk, "write 0 0 0 256", "refused 7");
    check(&mut desk, &[("write 0 0 1 30", "done 0")]);
    close_and_open(&mut desk, "read");
    for pointer in 0..3 {
        check_refused(&mut desk, &format!("write 0 0 {} 256", pointer), "refused 5");
    }
    check(&mut desk, &[("lend tables 4992", "lent 4992"), ("write 0 0 1 256", "refused 20")]);
}

#[test]
fn before_positions_used_up() {
    let mut desk = desk_of(3, 1, &[]);
    // The end and the begin of user 0's entry 0 are the tables' cells 3206 and 3205.
    check(
        &mut desk,
        &[("poke tables 3206 4294967295", "cell 4294967295"), ("poke tables 3205 4294967295", "cell 4294967295")],
    );
    check_refused(&mut desk, "write 0 0 1 256", "refused 23");
    check_refused(&mut desk, "write 0 0 1 255", "refused 10");
}

/// 32 segments of 128 elements, with and without a free one beside them.
#[test]
fn before_a_33rd_segment() {
    for segments in [32, 33] {
        let mut desk = desk_of(4, segments, &[7; 2048]);
        check(&mut desk, &[("writes 0 0 1 0", "rest 0 0"), ("claim 0 0", "done 4096")]);
        check_refused(&mut desk, "write 0 0 1 65536", "refused 23");
        check_refused(&mut desk, "write 0 0 1 65535", "refused 8");
    }
}

#[test]
fn before_no_room() {
    let mut desk = desk_of(3, 1, &[7; 256]);
    check_refused(&mut desk, "write 0 0 1 256", "refused 23");
    check_refused(&mut desk, "write 0 0 1 255", "refused 9");
    // Nor is there room for a copy of what is shared.
    close_and_open(&mut desk, "work");
    check(&mut desk, &[("reset 0 0", "done 0")]);
    check_refused(&mut desk, "write 0 0 2 256", "refused 23");
    check_refused(&mut desk, "write 0 0 2 255", "refused 9");
}

#[test]
fn a_shared_segment_is_not_copied_for_it() {
    let mut desk = desk_of(3, 2, &[7, 8]);
    close_and_open(&mut desk, "work");
    check(&mut desk, &[("reset 0 0", "done 0")]);
    check_refused(&mut desk, "write 0 0 2 300", "refused 23");
    check_refused(&mut desk, "write 0 0 1 300", "refused 23");
    check(&mut desk, &[("free 0", "done 1"), ("write 0 0 2 30", "done 0"), ("free 0", "done 0")]);
}

/// 12 is 0xC, cut it would be 0: nothing of a refused number is stored, and nothing is delivered otherwise.
#[test]
fn what_was_there_stays() {
    let mut desk = desk_of(1, 1, &[3, 2, 1]);
    check(&mut desk, &[("write 0 0 2 12", "refused 23"), ("peek store 0", "cell 3825205248")]);
    assert_eq!(0b11_10_01 << 26, 3_825_205_248_u32);
    check(&mut desk, &[("next 0 0 2", "done 3"), ("next 0 0 2", "done 2"), ("next 0 0 2", "done 1")]);
}
