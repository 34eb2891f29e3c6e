//! "Raise the begin and end limit to 4,294,967,295. Refusal 10 now stands at that end value."

mod common;

use common::far::{desk_at, poke, put_bounds, END, LAST, LIST, OWN, WORK};
use common::lists::put_into_list0;
use common::{answer, check};

/// Through the calls of its kind every species comes as far.
#[test]
fn appended_up_to_the_last_position() {
    for species in 0..7 {
        let mut desk = desk_at(1, species, LAST - 1);
        let words = if species == 6 { ["write_signed", "next_signed"] } else { ["write", "next"] };
        let (write, next) = (format!("{} 0 0 1 1", words[0]), format!("{} 0 0 2", words[1]));
        check(&mut desk, &[(&write, "done 0"), ("end 0 0", "done 4294967295")]);
        let before = ["sum tables", "sum store"].map(|line| answer(&mut desk, line));
        check(&mut desk, &[(&write, "refused 10"), ("end 0 0", "done 4294967295")]);
        assert_eq!(["sum tables", "sum store"].map(|line| answer(&mut desk, line)), before);
        check(&mut desk, &[("reset 0 0", "done 0"), (&next, "done 1"), (&next, "refused 7")]);
    }
}

/// Document 01's limit is none any more.
#[test]
fn appended_beyond_the_old_limit() {
    let mut desk = desk_at(2, 5, 16_777_213);
    for end in 16_777_214..16_777_220 {
        check(&mut desk, &[("write 0 0 1 7", "done 0"), ("end 0 0", &format!("done {}", end))]);
    }
    // 16,777,216 is 64 times 262,144: the last position of its stretch.
    check(&mut desk, &[("claim 0 0", "done 68"), ("free 0", "done 0")]);
}

/// Every stretch ends at a multiple of E, and the last one at 2^32: position 4,294,967,294 is the third from there.
#[test]
fn claims_at_the_end() {
    for species in 0..6 {
        let mut desk = desk_at(1, species, LAST - 1);
        check(&mut desk, &[("claim 0 0", "done 0"), ("write 0 0 1 1", "done 0"), ("claim 0 0", "done 3")]);
    }
    // The last stretch of whole cells is 67,108,863; it begins with 64 * 67,108,863 + 1 = 4,294,967,233.
    for (begin, claim) in [(4_294_967_233, 64), (4_294_967_232, 65), (4_294_967_169, 128), (4_294_967_168, 129)] {
        let mut desk = desk_at(3, 5, begin);
        check(&mut desk, &[("lend list0 200", "lent 200"), ("writes 0 0 1 0", &stopped_after(LAST - begin, 200))]);
        check(&mut desk, &[("claim 0 0", &format!("done {}", claim)), ("end 0 0", "done 4294967295")]);
    }
}

fn stopped_after(written: u32, lent: u32) -> String {
    format!("rest {} 10", lent - written)
}

#[test]
fn read_both_ways_at_the_end() {
    let mut desk = desk_at(1, 5, LAST - 2);
    check(&mut desk, &[("write 0 0 1 10", "done 0"), ("write 0 0 1 20", "done 0"), ("write 0 0 1 30", "refused 10")]);
    check(&mut desk, &[("reset 0 0", "done 0"), ("next 0 0 2", "done 10"), ("next 0 0 2", "done 20")]);
    check(
        &mut desk,
        &[("value 0 0 2", "done 4294967295"), ("next 0 0 2", "refused 7"), ("write 0 0 2 9", "refused 7")],
    );
    check(&mut desk, &[("prev 0 0 2", "done 20"), ("prev 0 0 2", "done 10"), ("prev 0 0 2", "refused 6")]);
    check(&mut desk, &[("pointer 0 0 1", "done 3"), ("prev 0 0 3", "done 20"), ("write 0 0 3 21", "done 0")]);
    check(&mut desk, &[("value 0 0 3", "done 4294967295"), ("write 0 0 3 9", "refused 7"), ("prev 0 0 1", "done 21")]);
    check(&mut desk, &[("prev 0 0 3", "refused 7"), ("write 0 0 1 22", "done 0"), ("prev 0 0 3", "done 22")]);
}

/// "A busy landing log that drops its head each night": nothing is left at last, and no position either.
#[test]
fn the_head_dropped_until_the_end() {
    let mut desk = desk_at(1, 5, LAST - 3);
    put_into_list0(&mut desk, &[1, 2, 3, 4]);
    check(&mut desk, &[("writes 0 0 1 0", "rest 1 10"), ("write 0 0 0 5", "done 0"), ("next 0 0 0", "done 2")]);
    check(&mut desk, &[("begin 0 0", "done 4294967294"), ("claim 0 0", "done 3"), ("nexts 0 0 0 0", "filled 1 7")]);
    check(&mut desk, &[("begin 0 0", "done 4294967295"), ("end 0 0", "done 4294967295"), ("claim 0 0", "done 0")]);
    check(&mut desk, &[("free 0", "done 1"), ("next 0 0 0", "refused 7"), ("prev 0 0 1", "refused 6")]);
    check(&mut desk, &[("write 0 0 0 1", "refused 7"), ("write 0 0 1 1", "refused 10"), ("next 0 0 2", "refused 6")]);
}

/// "the values of pointers 2 to 7, where they exist, are 1 to the greatest end value"; 0 says that an own one is not there.
#[test]
fn pointers_as_far_as_a_cell_goes() {
    let mut desk = desk_at(1, 5, 7);
    check(&mut desk, &[("write 0 0 1 5", "done 0")]);
    for value in [1, 16_777_216, LAST - 1, LAST] {
        poke(&mut desk, WORK, value);
        poke(&mut desk, OWN, value);
        check(&mut desk, &[("value 0 0 2", &format!("done {}", value)), ("value 0 0 3", &format!("done {}", value))]);
        let refusal = if value == 1 { "refused 6" } else { "refused 7" };
        check(&mut desk, &[("next 0 0 3", refusal), ("prev 0 0 3", refusal), ("write 0 0 2 1", refusal)]);
    }
    poke(&mut desk, OWN, 0);
    check(&mut desk, &[("value 0 0 3", "refused 4")]);
    poke(&mut desk, WORK, 0);
    check(&mut desk, &[("value 0 0 2", "refused 20")]);
}

/// "1 <= begin <= end"; an end of 32 bits that began again at 0 is none.
#[test]
fn bounds_that_are_none() {
    let mut desk = desk_at(1, 5, LAST);
    check(&mut desk, &[("free 0", "done 1")]);
    for (begin, end) in [(LAST, 0), (LAST, 1), (0, 0), (0, LAST), (1, LAST), (LAST, LAST - 1)] {
        put_bounds(&mut desk, begin, end);
        check(&mut desk, &[("free 0", "refused 20")]);
    }
    put_bounds(&mut desk, LAST, LAST);
    check(&mut desk, &[("free 0", "done 1"), ("write 0 0 1 1", "refused 10")]);
}

/// In the order 10, 8, 9: with 32 segments up to the end of positions, and with no segment free.
#[test]
fn before_a_33rd_segment_and_before_no_room() {
    let mut desk = desk_at(32, 5, LAST - 1);
    // 32 stretches of whole cells begin with position 64 * (67,108,864 - 32) + 1.
    put_bounds(&mut desk, 4_294_965_249, LAST);
    (1..32).for_each(|segment| poke(&mut desk, LIST + segment, segment as u32));
    check(&mut desk, &[("free 0", "done 0"), ("claim 0 0", "done 2048"), ("write 0 0 1 1", "refused 10")]);
    check(&mut desk, &[("prev 0 0 1", "done 0"), ("write 0 0 1 1", "done 0"), ("write 0 0 1 1", "refused 10")]);
    // One stretch lower the next append needs a 33rd segment.
    put_bounds(&mut desk, 4_294_965_185, 4_294_967_233);
    check(&mut desk, &[("claim 0 0", "done 2048"), ("write 0 0 1 1", "refused 8"), ("new 1 0 5", "done 0")]);
    check(&mut desk, &[("write 1 0 1 1", "refused 9")]);
    poke(&mut desk, END, 4_294_967_234);
    check(&mut desk, &[("free 0", "refused 20")]);
}
