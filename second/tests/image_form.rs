//! "Image form 2 has begin and end of 32 bits each and 16 zero bits at a record's end: 480 bits, 961 cells in all, form
//! number 2 in cell 0. Save writes form 2. Load takes a 961-cell form 2 image only".

mod common;

use common::far::{desk_at, LAST};
use common::lists::check_cells;
use common::{answer, check, fresh_desk};
use filing::text::answering::Desk;

const IMAGE: usize = 961;

fn poke_image0(desk: &mut Desk, cell: usize, value: u32) {
    check(desk, &[(&format!("poke image0 {} {}", cell, value), &format!("cell {}", value))]);
}

fn lend_image0(desk: &mut Desk, length: usize) {
    check(desk, &[(&format!("lend image0 {}", length), &format!("lent {}", length))]);
}

/// 22, and the tables stay as they were.
fn check_refused(desk: &mut Desk, line: &str) {
    let before = ["sum tables", "sum image0"].map(|sum| answer(desk, sum));
    check(desk, &[(line, "refused 22")]);
    assert_eq!(["sum tables", "sum image0"].map(|sum| answer(desk, sum)), before);
}

/// A store of 128 segments with document 01's file: private, "a", user 2, species 5, b = 1, e = 2, segment 0; saved.
fn desk_with_a_saved_file() -> Desk {
    let mut desk = fresh_desk(8192);
    check(&mut desk, &[("new 2 0 5", "done 0"), ("write 2 0 1 7", "done 0"), ("rename 2 0 a", "done 0")]);
    check(&mut desk, &[("close 2 0", "done 0"), ("save 0", "done 0"), ("load 0", "done 0")]);
    desk
}

#[test]
fn form_numbers() {
    let mut desk = desk_with_a_saved_file();
    for cell in [0x0110_0000, 0x0010_0000, 0x0310_0000, 0x8210_0000, 0xFF10_0000] {
        poke_image0(&mut desk, 0, cell);
        check_refused(&mut desk, "load 0");
    }
    poke_image0(&mut desk, 0, 0x0210_0000);
    check(&mut desk, &[("load 0", "done 0")]);
}

#[test]
fn lengths() {
    let mut desk = desk_with_a_saved_file();
    for length in [897, 960, 962, 896, 898, 1, 0, 1024] {
        lend_image0(&mut desk, length);
        check_refused(&mut desk, "load 0");
        check_refused(&mut desk, "save 0");
    }
    lend_image0(&mut desk, IMAGE);
    check(&mut desk, &[("load 0", "done 0"), ("save 0", "done 0")]);
}

/// "the cells printed in 01 stay true of form 1", and load takes no such image; P7 moves it first.
#[test]
fn the_images_of_document_01() {
    let fresh: &[u32] = &[0x0110_0000];
    let with_a_file: &[u32] = &[0x0110_0000, 0x95FF_FFFF, 0xFFFF_FFFF, 0xFFAD_0000, 0x0100_0002];
    for cells in [fresh, with_a_file] {
        let mut desk = fresh_desk(8192);
        cells.iter().enumerate().for_each(|(cell, &value)| poke_image0(&mut desk, cell, value));
        for length in [897, IMAGE] {
            lend_image0(&mut desk, length);
            check_refused(&mut desk, "load 0");
        }
    }
}

/// The last 16 bits of a record's fifteen cells, whether it is used (place 0) or not (places 1 and 63).
#[test]
fn bits_at_a_records_end() {
    let mut desk = desk_with_a_saved_file();
    for last_cell in [15, 30, 960] {
        for bit in 0..16 {
            poke_image0(&mut desk, last_cell, 1 << bit);
            check_refused(&mut desk, "load 0");
        }
        poke_image0(&mut desk, last_cell, 0);
        check(&mut desk, &[("load 0", "done 0"), ("free 0", "done 127")]);
    }
}

/// Begin and end of record 0 are the lower half of cell 3, cell 4 and the upper half of cell 5.
fn put_bounds(desk: &mut Desk, begin: u32, end: u32) {
    poke_image0(desk, 3, 0xFFAD_0000 | begin >> 16);
    poke_image0(desk, 4, begin << 16 | end >> 16);
    poke_image0(desk, 5, end << 16);
}

#[test]
fn bounds_in_the_image() {
    let mut desk = desk_with_a_saved_file();
    // 16,777,216 is the last position of a stretch.
    let sound = [(LAST - 1, LAST), (LAST, LAST), (1, 1), (16_777_215, 16_777_217), (16_777_217, 16_777_218)];
    for (begin, end) in sound {
        put_bounds(&mut desk, begin, end);
        check(&mut desk, &[("load 0", "done 0"), ("read 2 0 a", "done 0")]);
        check(&mut desk, &[("begin 2 0", &format!("done {}", begin)), ("end 2 0", &format!("done {}", end))]);
        let free = if begin == end { "done 128" } else { "done 127" };
        check(&mut desk, &[("free 0", free)]);
    }
    for (begin, end) in [(0, 0), (0, 1), (2, 1), (LAST, 0), (LAST, LAST - 1), (LAST, 1), (1, LAST), (1, 2050)] {
        put_bounds(&mut desk, begin, end);
        check_refused(&mut desk, "load 0");
    }
}

/// 4,294,967,293 is 0xFFFFFFFD, 4,294,967,295 is 0xFFFFFFFF.
#[test]
fn a_file_at_the_very_end_there_and_back() {
    let mut desk = desk_at(128, 5, LAST - 2);
    check(&mut desk, &[("write 0 0 1 10", "done 0"), ("write 0 0 1 20", "done 0"), ("write 0 0 1 1", "refused 10")]);
    check(&mut desk, &[("rename 0 0 a", "done 0"), ("close 0 0", "done 0"), ("save 0", "done 0")]);
    // Owner 0 in place of 2: the three bits after nine of the name are 000.
    check_cells(
        &mut desk,
        "image0",
        0,
        &[0x0210_0000, 0x95FF_FFFF, 0xFFFF_FFFF, 0xFF8D_FFFF, 0xFFFD_FFFF, 0xFFFF_0000],
    );
    check_cells(&mut desk, "image0", 6, &[0; 955]);
    let tables = answer(&mut desk, "sum tables");
    check(&mut desk, &[("fresh", "done 0"), ("load 0", "done 0"), ("sum tables", &tables), ("read 0 0 a", "done 0")]);
    check(&mut desk, &[("begin 0 0", "done 4294967293"), ("end 0 0", "done 4294967295"), ("claim 0 0", "done 4")]);
    check(&mut desk, &[("next 0 0 2", "done 10"), ("next 0 0 2", "done 20"), ("next 0 0 2", "refused 7")]);
    check(&mut desk, &[("prev 0 0 2", "done 20"), ("prev 0 0 2", "done 10"), ("prev 0 0 2", "refused 6")]);
    check(&mut desk, &[("close 0 0", "done 0"), ("work 0 0 a", "done 0"), ("value 0 0 2", "done 4294967295")]);
    check(&mut desk, &[("write 0 0 1 1", "refused 10"), ("prev 0 0 2", "done 20"), ("write 0 0 2 21", "done 0")]);
    check(&mut desk, &[("peek store 60", "cell 10"), ("peek store 61", "cell 20"), ("peek store 125", "cell 21")]);
}
