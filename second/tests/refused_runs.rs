//! Runs that write and fill nothing: of an empty list, or refused at their first element.

mod common;

use common::lists::{close_and_open, desk_with};
use common::{answer, check};
use filing::text::answering::Desk;

/// What no run may change where it does nothing.
fn sums(desk: &mut Desk) -> [String; 4] {
    ["sum store", "sum tables", "sum list0", "sum list1"].map(|line| answer(desk, line))
}

/// "a list of length 0 still gets refusals 20, 1, 2, 4, 5 where they apply".
#[test]
fn an_empty_list_is_judged() {
    let mut desk = desk_with(1, &[1, 2]);
    check(&mut desk, &[("lend list0 0", "lent 0"), ("lend list1 0", "lent 0")]);
    check(&mut desk, &[("writes 8 4 8 0", "rest 0 1"), ("nexts 8 4 8 1", "filled 0 1")]);
    check(&mut desk, &[("writes 0 4 8 0", "rest 0 2"), ("nexts 0 1 8 1", "filled 0 2")]);
    check(&mut desk, &[("writes 0 0 3 0", "rest 0 4"), ("nexts 0 0 8 1", "filled 0 4")]);
    close_and_open(&mut desk, "read");
    check(&mut desk, &[("writes 0 0 3 0", "rest 0 4"), ("nexts 0 0 3 0", "filled 0 4")]);
    for pointer in 0..3 {
        assert_eq!(answer(&mut desk, &format!("writes 0 0 {} 0", pointer)), "rest 0 5");
    }
    check(&mut desk, &[("nexts 0 0 0 1", "filled 0 5"), ("nexts 0 0 1 1", "filled 0 0")]);
    check(&mut desk, &[("nexts 0 0 2 1", "filled 0 0"), ("lend store 63", "lent 63")]);
    check(&mut desk, &[("writes 8 4 8 0", "rest 0 20"), ("nexts 8 4 8 1", "filled 0 20")]);
}

/// An empty list never gets 6, 7, 10, 8 or 9: these are about an element.
#[test]
fn an_empty_list_gets_no_later_number() {
    let mut desk = desk_with(1, &[1; 64]);
    check(&mut desk, &[("next 0 0 0", "done 1"), ("pointer 0 0 1", "done 3")]);
    for (pointer, wanted) in [(0, 0), (1, 9), (2, 6), (3, 7)] {
        check(&mut desk, &[("lend list0 0", "lent 0")]);
        assert_eq!(answer(&mut desk, &format!("writes 0 0 {} 0", pointer)), "rest 0 0");
        assert_eq!(answer(&mut desk, &format!("nexts 0 0 {} 0", pointer)), "filled 0 0");
        check(&mut desk, &[("lend list0 1", "lent 1")]);
        let rest = usize::from(wanted != 0);
        assert_eq!(answer(&mut desk, &format!("writes 0 0 {} 0", pointer)), format!("rest {} {}", rest, wanted));
    }
}

/// "Where the first element is refused" the whole list is the rest, and nothing has changed.
#[test]
fn a_first_element_refused() {
    let mut desk = desk_with(1, &[1, 2]);
    close_and_open(&mut desk, "read");
    check(&mut desk, &[("lend list0 40", "lent 40")]);
    let before = sums(&mut desk);
    check(
        &mut desk,
        &[("writes 8 0 1 0", "rest 40 1"), ("writes 1 0 1 0", "rest 40 2"), ("writes 0 0 9 0", "rest 40 4")],
    );
    check(
        &mut desk,
        &[("writes 0 0 1 0", "rest 40 5"), ("nexts 0 0 0 0", "filled 0 5"), ("nexts 0 0 1 0", "filled 0 7")],
    );
    assert_eq!(sums(&mut desk), before);
    check(&mut desk, &[("lend tables 4992", "lent 4992"), ("writes 8 0 1 0", "rest 40 20")]);
    check(&mut desk, &[("nexts 8 0 1 0", "filled 0 20"), ("lend tables 4993", "lent 4993")]);
    assert_eq!(sums(&mut desk), before);
}
