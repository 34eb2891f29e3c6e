//! "Worked examples", as small histories.

mod common;

use common::{answer, check, fresh_desk, repeat};
use filing::text::answering::Desk;

fn check_image0(desk: &mut Desk, first_cells: &[u32]) {
    for cell in 0..961 {
        let wanted = format!("cell {}", first_cells.get(cell).unwrap_or(&0));
        assert_eq!(answer(desk, &format!("peek image0 {}", cell)), wanted, "cell {} of the image", cell);
    }
}

#[test]
fn lift_7_and_capital_lift() {
    let mut desk = fresh_desk(8192);
    check(&mut desk, &[("new 0 0 5", "done 0"), ("rename 0 0 lift 7", "done 0")]);
    let symbols = [21, 18, 15, 29, 7, 63, 63, 63, 63, 63, 63, 63, 63];
    for (k, symbol) in symbols.iter().enumerate() {
        assert_eq!(answer(&mut desk, &format!("symbol 0 0 {}", k)), format!("done {}", symbol));
    }
    check(&mut desk, &[("rename 0 0 Lift", "done 0")]);
    for k in 0..12 {
        assert_eq!(answer(&mut desk, &format!("symbol 0 0 {}", k)), "done 63");
    }
}

#[test]
fn width_4_position_10_element_10() {
    let mut desk = fresh_desk(8192);
    check(&mut desk, &[("new 0 0 2", "done 0")]);
    repeat(&mut desk, 9, "write 0 0 1 0", "done 0");
    check(&mut desk, &[("write 0 0 1 10", "done 0"), ("peek store 0", "cell 0")]);
    check(&mut desk, &[("peek store 1", "cell 167772160"), ("peek store 2", "cell 0")]);
    assert_eq!(0x0A00_0000, 167_772_160);
}

/// Document 02: "01's example with 300 changes so": it is refused, and nothing is stored.
#[test]
fn three_hundred_in_species_3() {
    let mut desk = fresh_desk(8192);
    check(&mut desk, &[("new 0 0 3", "done 0")]);
    let before = ["sum tables", "sum store"].map(|line| answer(&mut desk, line));
    check(&mut desk, &[("write 0 0 1 300", "refused 23"), ("prev 0 0 1", "refused 6"), ("free 0", "done 128")]);
    assert_eq!(["sum tables", "sum store"].map(|line| answer(&mut desk, line)), before);
    check(&mut desk, &[("write 0 0 1 44", "done 0"), ("prev 0 0 1", "done 44")]);
}

#[test]
fn claims_at_a_boundary() {
    let mut desk = fresh_desk(8192);
    check(&mut desk, &[("new 0 0 5", "done 0"), ("claim 0 0", "done 0")]);
    repeat(&mut desk, 65, "write 0 0 1 7", "done 0");
    repeat(&mut desk, 63, "next 0 0 0", "done 7");
    check(&mut desk, &[("begin 0 0", "done 64"), ("end 0 0", "done 66"), ("claim 0 0", "done 65")]);
    check(&mut desk, &[("free 0", "done 126"), ("prev 0 0 1", "done 7"), ("write 0 0 0 9", "done 0")]);
    check(&mut desk, &[("begin 0 0", "done 65"), ("end 0 0", "done 65"), ("claim 0 0", "done 0")]);
    check(&mut desk, &[("free 0", "done 128")]);
}

#[test]
fn prev_through_the_end_twice_and_once_more() {
    let mut desk = fresh_desk(8192);
    check(&mut desk, &[("new 0 0 5", "done 0"), ("write 0 0 1 10", "done 0"), ("write 0 0 1 20", "done 0")]);
    check(&mut desk, &[("prev 0 0 1", "done 20"), ("prev 0 0 1", "done 10"), ("prev 0 0 1", "refused 6")]);
}

#[test]
fn an_own_pointer_at_the_end() {
    let mut desk = fresh_desk(8192);
    check(&mut desk, &[("new 0 0 5", "done 0"), ("write 0 0 1 10", "done 0"), ("write 0 0 1 20", "done 0")]);
    check(&mut desk, &[("pointer 0 0 1", "done 3"), ("write 0 0 3 5", "refused 7"), ("prev 0 0 3", "done 20")]);
    check(&mut desk, &[("end 0 0", "done 3"), ("value 0 0 3", "done 2")]);
}

/// Document 02: "both saved images are form 2, with 0x02100000 first". The begin's 32 bits are the lower half of cell 3 and
/// the upper half of cell 4, the end's follow.
#[test]
fn the_two_saved_images() {
    let mut desk = fresh_desk(8192);
    check(&mut desk, &[("save 0", "done 0")]);
    check_image0(&mut desk, &[0x0210_0000]);
    check(&mut desk, &[("new 2 0 5", "done 0"), ("write 2 0 1 7", "done 0"), ("rename 2 0 a", "done 0")]);
    check(&mut desk, &[("close 2 0", "done 0"), ("save 0", "done 0")]);
    let file = [0x95FF_FFFF, 0xFFFF_FFFF, 0xFFAD_0000, 0x0001_0000, 0x0002_0000];
    check_image0(&mut desk, &[&[0x0210_0000], &file[..]].concat());
}

#[test]
fn abandoned_work_leaves_the_file_as_it_was() {
    let mut desk = fresh_desk(8192);
    check(&mut desk, &[("new 0 0 5", "done 0"), ("write 0 0 1 10", "done 0"), ("write 0 0 1 20", "done 0")]);
    check(&mut desk, &[("rename 0 0 a", "done 0"), ("close 0 0", "done 0"), ("work 0 0 a", "done 0")]);
    check(&mut desk, &[("prev 0 0 1", "done 20"), ("write 0 0 1 99", "done 0"), ("free 0", "done 126")]);
    check(&mut desk, &[("abandon 0 0", "done 0"), ("free 0", "done 127"), ("read 0 0 a", "done 0")]);
    check(&mut desk, &[("next 0 0 2", "done 10"), ("next 0 0 2", "done 20"), ("next 0 0 2", "refused 7")]);
}

#[test]
fn positions_are_used_up() {
    let mut desk = fresh_desk(8192);
    // The end and the begin of user 0's entry 0 are the tables' cells 3206 and 3205.
    check(&mut desk, &[("new 0 0 5", "done 0"), ("poke tables 3206 4294967294", "cell 4294967294")]);
    check(&mut desk, &[("free 0", "refused 20"), ("poke tables 3205 4294967294", "cell 4294967294")]);
    check(&mut desk, &[("write 0 0 1 1", "done 0"), ("end 0 0", "done 4294967295")]);
    check(&mut desk, &[("write 0 0 1 1", "refused 10"), ("prev 0 0 1", "done 1"), ("write 0 0 1 1", "done 0")]);
}

#[test]
fn stores_of_63_and_64_cells() {
    let mut desk = Desk::new();
    check(&mut desk, &[("lend store 63", "lent 63"), ("fresh", "refused 20"), ("free 0", "refused 20")]);
    check(&mut desk, &[("lend store 64", "lent 64"), ("fresh", "done 0"), ("free 0", "done 1")]);
    check(&mut desk, &[("peek tables 0", "cell 1")]);
}

#[test]
fn thirty_two_segments_and_nothing_free() {
    let mut desk = fresh_desk(2048);
    check(&mut desk, &[("new 0 0 5", "done 0")]);
    repeat(&mut desk, 2048, "write 0 0 1 3", "done 0");
    check(&mut desk, &[("free 0", "done 0"), ("write 0 0 1 3", "refused 8"), ("new 1 0 5", "done 0")]);
    check(&mut desk, &[("write 1 0 1 3", "refused 9"), ("next 0 0 0", "done 3"), ("write 0 0 1 3", "refused 8")]);
    repeat(&mut desk, 63, "next 0 0 0", "done 3");
    check(&mut desk, &[("free 0", "done 1"), ("write 0 0 1 3", "done 0"), ("free 0", "done 0")]);
}
