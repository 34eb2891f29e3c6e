//! "Slips a tired builder makes", and other places where sharing shows.

mod common;

use common::{answer, check, fresh_desk, repeat};
use filing::text::answering::Desk;

/// A store of so many segments with a file "a" of user 0: so many elements of species 5, all alike.
fn desk_with_a(segments: usize, elements: usize) -> Desk {
    let mut desk = fresh_desk(64 * segments);
    check(&mut desk, &[("new 0 0 5", "done 0")]);
    repeat(&mut desk, elements, "write 0 0 1 8", "done 0");
    check(&mut desk, &[("rename 0 0 a", "done 0"), ("close 0 0", "done 0")]);
    desk
}

#[test]
fn a_dropped_shared_segment_is_not_free() {
    let mut desk = desk_with_a(4, 65);
    check(&mut desk, &[("work 0 0 a", "done 0"), ("free 0", "done 2"), ("prev 0 0 1", "done 8")]);
    check(&mut desk, &[("free 0", "done 2"), ("claim 0 0", "done 64")]);
    // "A shared segment once dropped isn't taken back": the stretch gets segment 2, zeroed.
    check(&mut desk, &[("poke store 129 5", "cell 5"), ("write 0 0 1 9", "done 0"), ("free 0", "done 1")]);
    check(&mut desk, &[("peek store 128", "cell 9"), ("peek store 129", "cell 0"), ("peek store 64", "cell 8")]);
    check(&mut desk, &[("abandon 0 0", "done 0"), ("free 0", "done 2")]);
}

#[test]
fn the_copy_comes_before_the_write() {
    let mut desk = desk_with_a(2, 3);
    check(&mut desk, &[("work 0 0 a", "done 0"), ("reset 0 0", "done 0")]);
    check(&mut desk, &[("write 0 0 2 1", "done 0"), ("peek store 0", "cell 8")]);
    check(&mut desk, &[("peek store 64", "cell 1"), ("peek store 65", "cell 8"), ("peek store 66", "cell 8")]);
    check(&mut desk, &[("write 0 0 2 1", "done 0"), ("free 0", "done 0"), ("peek store 65", "cell 1")]);
    check(&mut desk, &[("close 0 0", "done 0"), ("free 0", "done 1"), ("peek store 0", "cell 8")]);
}

#[test]
fn no_room_for_the_copy() {
    let mut desk = desk_with_a(1, 3);
    check(&mut desk, &[("work 0 0 a", "done 0"), ("reset 0 0", "done 0")]);
    check(&mut desk, &[("write 0 0 2 1", "refused 9"), ("write 0 0 1 1", "refused 9")]);
    check(&mut desk, &[("prev 0 0 1", "done 8"), ("write 0 0 1 1", "refused 9"), ("write 0 0 0 1", "done 0")]);
    check(&mut desk, &[("close 0 0", "done 0"), ("work 0 0 a", "done 0"), ("claim 0 0", "done 63")]);
    check(&mut desk, &[("rename 0 0", "done 0"), ("public 0 0", "refused 18"), ("close 0 0", "done 0")]);
    check(&mut desk, &[("free 0", "done 1"), ("work 0 0 a", "refused 11"), ("peek store 0", "cell 8")]);
}

#[test]
fn a_freed_segment_is_used_again_and_zeroed() {
    let mut desk = desk_with_a(1, 64);
    check(&mut desk, &[("new 1 0 0", "done 0"), ("write 1 0 1 1", "refused 9"), ("work 0 0 a", "done 0")]);
    check(&mut desk, &[("rename 0 0", "done 0"), ("close 0 0", "done 0"), ("peek store 63", "cell 8")]);
    check(&mut desk, &[("write 1 0 1 1", "done 0"), ("peek store 0", "cell 2147483648")]);
    check(&mut desk, &[("peek store 63", "cell 0")]);
}

#[test]
fn a_load_shows_old_cells_again() {
    let mut desk = desk_with_a(2, 2);
    check(&mut desk, &[("save 1", "done 0"), ("fresh", "done 0"), ("read 0 0 a", "refused 11")]);
    check(&mut desk, &[("load 1", "done 0"), ("read 0 0 a", "done 0"), ("next 0 0 2", "done 8")]);
    check(&mut desk, &[("poke store 1 77", "cell 77"), ("next 0 0 2", "done 77"), ("free 7", "done 1")]);
}

#[test]
fn a_smaller_store_and_a_larger_one() {
    let mut desk = desk_with_a(2, 2);
    check(&mut desk, &[("save 1", "done 0"), ("lend store 127", "lent 127"), ("free 0", "refused 20")]);
    check(&mut desk, &[("save 1", "refused 20"), ("load 1", "refused 22"), ("lend store 128", "lent 128")]);
    check(&mut desk, &[("load 1", "done 0"), ("lend store 65600", "lent 65600"), ("free 0", "done 1")]);
    check(&mut desk, &[("fresh", "done 0"), ("free 0", "done 1024")]);
}

#[test]
fn pokes_that_break_and_mend() {
    let mut desk = desk_with_a(2, 2);
    let before = answer(&mut desk, "sum tables");
    // Record 0 starts at cell 1; its end is cell 18, its owner cell 14.
    check(&mut desk, &[("poke tables 18 0", "cell 0"), ("read 0 0 a", "refused 20"), ("save 0", "refused 20")]);
    check(&mut desk, &[("poke tables 18 3", "cell 3"), ("sum tables", &before), ("read 0 0 a", "done 0")]);
    check(&mut desk, &[("poke tables 14 1", "cell 1"), ("free 0", "refused 20")]);
    check(&mut desk, &[("poke tables 15 0", "cell 0"), ("free 0", "done 1")]);
}
