//! "segments in all lists are distinct, but for a record and its openings at one stretch": however far apart two stretches
//! are, they are two.

mod common;

use common::far::{poke, put_bounds, LIST};
use common::{check, fresh_desk};
use filing::cells::fields::{record as of_record, record_cells};
use filing::text::answering::Desk;

/// Elements of 32 bits: 64 in a segment.
const ELEMENTS: u32 = 64;

/// So many stretches there were below document 01's limit.
const OLD_STRETCHES: u32 = 262_144;

/// User 0's file "a" of species 5 with one element in segment 0 of four, at the first stretch, opened for work.
fn desk_with_work_on_a() -> Desk {
    let mut desk = fresh_desk(256);
    check(&mut desk, &[("new 0 0 5", "done 0"), ("write 0 0 1 7", "done 0"), ("rename 0 0 a", "done 0")]);
    check(&mut desk, &[("close 0 0", "done 0"), ("work 0 0 a", "done 0"), ("free 0", "done 3")]);
    desk
}

fn put_at_stretch(desk: &mut Desk, stretch: u32) {
    let begin = stretch * ELEMENTS + 1;
    put_bounds(desk, begin, begin + 1);
}

#[test]
fn a_work_opening_262_144_stretches_from_its_record() {
    let mut desk = desk_with_work_on_a();
    put_bounds(&mut desk, 16_777_217, 16_777_218);
    check(&mut desk, &[("free 0", "refused 20"), ("claim 0 0", "refused 20"), ("save 0", "refused 20")]);
    // With a segment of its own it is sound there, and sharing at one stretch was.
    poke(&mut desk, LIST, 1);
    check(&mut desk, &[("free 0", "done 2"), ("claim 0 0", "done 64"), ("next 0 0 0", "done 0")]);
    check(&mut desk, &[("free 0", "done 3"), ("abandon 0 0", "done 0"), ("read 0 0 a", "done 0")]);
}

#[test]
fn a_work_opening_at_other_stretches() {
    let mut desk = desk_with_work_on_a();
    let powers = (0..26).map(|power| 1 << power);
    let multiples = (1..=255).map(|times| OLD_STRETCHES * times);
    let last = [67_108_863, 67_108_862];
    for stretch in powers.chain(multiples).chain(last) {
        put_at_stretch(&mut desk, stretch);
        check(&mut desk, &[("free 0", "refused 20")]);
    }
    put_at_stretch(&mut desk, 0);
    check(&mut desk, &[("free 0", "done 3")]);
    // Another position of the same stretch.
    put_bounds(&mut desk, 40, 50);
    check(&mut desk, &[("free 0", "done 3"), ("claim 0 0", "done 25")]);
}

/// Shared far up as well: the last stretch of all.
#[test]
fn at_one_stretch_far_up() {
    let mut desk = fresh_desk(256);
    check(&mut desk, &[("new 0 0 5", "done 0")]);
    put_at_stretch(&mut desk, 67_108_863);
    check(&mut desk, &[("rename 0 0 a", "done 0"), ("close 0 0", "done 0"), ("work 0 0 a", "done 0")]);
    check(
        &mut desk,
        &[("free 0", "done 3"), ("reset 0 0", "done 0"), ("write 0 0 2 5", "done 0"), ("free 0", "done 2")],
    );
    put_at_stretch(&mut desk, 67_108_863 - OLD_STRETCHES);
    check(&mut desk, &[("free 0", "done 2")]);
    poke(&mut desk, LIST, 0);
    check(&mut desk, &[("free 0", "refused 20")]);
}

/// Records at places 0 and 1 to 3 with one segment, as many times 262,144 stretches apart as their places are.
#[test]
fn two_records_apart() {
    let mut desk = fresh_desk(256);
    for name in ["a", "b", "c", "d"] {
        check(&mut desk, &[("new 0 0 5", "done 0"), ("write 0 0 1 7", "done 0")]);
        check(&mut desk, &[(&format!("rename 0 0 {}", name), "done 0"), ("close 0 0", "done 0")]);
    }
    let field = |place: usize, offset| record_cells(place).start + offset;
    for other in 1..4 {
        for times in [0, 1, other as u32, 64, 255] {
            let begin = OLD_STRETCHES * times * ELEMENTS + 1;
            poke(&mut desk, field(0, of_record::END), begin + 1);
            poke(&mut desk, field(0, of_record::BEGIN), begin);
            check(&mut desk, &[("free 0", "done 0")]);
            poke(&mut desk, field(0, of_record::LIST.start), other as u32);
            check(&mut desk, &[("free 0", "refused 20")]);
            poke(&mut desk, field(0, of_record::LIST.start), 0);
        }
    }
}

/// A new file has no record whose segments it could share, be it at the same stretch.
#[test]
fn a_record_and_a_new_file() {
    let mut desk = desk_with_work_on_a();
    check(&mut desk, &[("close 0 0", "done 0"), ("new 0 0 5", "done 0"), ("write 0 0 1 7", "done 0")]);
    check(&mut desk, &[("free 0", "done 2")]);
    for stretch in [0, 1, OLD_STRETCHES, 64 * OLD_STRETCHES, 67_108_863] {
        put_at_stretch(&mut desk, stretch);
        check(&mut desk, &[("free 0", "done 2")]);
        poke(&mut desk, LIST, 0);
        check(&mut desk, &[("free 0", "refused 20")]);
        poke(&mut desk, LIST, 1);
    }
}
