//! "Images may hold species 6", and tables: species 0 to 6 are sound, 7 is not.

mod common;

use common::lists::check_cells;
use common::{answer, check, fresh_desk};
use filing::text::answering::Desk;

/// Document 01's image of "one private file "a" of user 2, species 5, b = 1, e = 2, segment 0" has 0xFFAD0000 in cell 3:
/// nine bits of the name, owner 010, private 1, species 101. With species 110 the last three bits are one more.
const CELLS_BEFORE: [u32; 3] = [0x0210_0000, 0x95FF_FFFF, 0xFFFF_FFFF];
const SPECIES_CELL: u32 = 0xFFAE_0000;
/// In form 2 the 32 bits of begin 1 and of end 2 follow.
const CELLS_AFTER: [u32; 2] = [0x0001_0000, 0x0002_0000];

/// That file with the element -5, saved in image 0.
fn desk_with_a_saved_file() -> Desk {
    let mut desk = fresh_desk(8192);
    check(&mut desk, &[("new 2 0 6", "done 0"), ("write_signed 2 0 1 -5", "done 0"), ("rename 2 0 a", "done 0")]);
    check(&mut desk, &[("close 2 0", "done 0"), ("save 0", "done 0")]);
    desk
}

#[test]
fn the_saved_image() {
    let mut desk = desk_with_a_saved_file();
    check_cells(&mut desk, "image0", 0, &CELLS_BEFORE);
    check_cells(&mut desk, "image0", 3, &[SPECIES_CELL]);
    check_cells(&mut desk, "image0", 4, &CELLS_AFTER);
    check_cells(&mut desk, "image0", 6, &[0; 955]);
    check_cells(&mut desk, "store", 0, &[0xFFFB_0000, 0]);
}

#[test]
fn the_loaded_image() {
    let mut desk = desk_with_a_saved_file();
    let tables = answer(&mut desk, "sum tables");
    check(&mut desk, &[("fresh", "done 0"), ("load 0", "done 0"), ("sum tables", &tables), ("read 2 1 a", "done 0")]);
    check(&mut desk, &[("species 2 1", "done 6"), ("next_signed 2 1 2", "done -5"), ("next 2 1 2", "refused 19")]);
}

/// The same segment, said to be of another species of 16 bits: 0xFFFB is 65,531.
#[test]
fn loaded_as_another_species() {
    let mut desk = desk_with_a_saved_file();
    let plain = SPECIES_CELL - 0x0002_0000;
    check(&mut desk, &[(&format!("poke image0 3 {}", plain), &format!("cell {}", plain)), ("load 0", "done 0")]);
    check(&mut desk, &[("read 2 1 a", "done 0"), ("species 2 1", "done 4"), ("next 2 1 2", "done 65531")]);
    check(&mut desk, &[("next_signed 2 1 2", "refused 19")]);
}

#[test]
fn an_image_with_species_7() {
    let mut desk = desk_with_a_saved_file();
    let seven = SPECIES_CELL + 0x0001_0000;
    check(&mut desk, &[(&format!("poke image0 3 {}", seven), &format!("cell {}", seven))]);
    let tables = answer(&mut desk, "sum tables");
    check(&mut desk, &[("load 0", "refused 22"), ("sum tables", &tables)]);
}

/// Record 0 starts at cell 1 and its species is cell 16.
#[test]
fn a_poked_record() {
    let mut desk = desk_with_a_saved_file();
    check(&mut desk, &[("peek tables 16", "cell 6")]);
    for (species, wanted) in [(7, "refused 20"), (8, "refused 20"), (4, "done 127"), (0, "done 127"), (6, "done 127")] {
        let poke = format!("poke tables 16 {}", species);
        check(&mut desk, &[(&poke, &format!("cell {}", species)), ("free 0", wanted)]);
    }
    check(&mut desk, &[("read 2 1 a", "done 0"), ("next_signed 2 1 2", "done -5")]);
}

/// The opening of user 2's entry 0 starts at cell 3201 + 56 * 8 = 3649; its species is cell 3652.
#[test]
fn a_poked_opening() {
    let mut desk = desk_with_a_saved_file();
    check(&mut desk, &[("new 2 0 4", "done 0"), ("write 2 0 1 65531", "done 0"), ("peek tables 3652", "cell 4")]);
    check(&mut desk, &[("poke tables 3652 6", "cell 6"), ("species 2 0", "done 6"), ("next_signed 2 0 2", "done -5")]);
    check(&mut desk, &[("poke tables 3652 7", "cell 7"), ("species 2 0", "refused 20"), ("save 1", "refused 20")]);
    check(&mut desk, &[("poke tables 3652 6", "cell 6"), ("abandon 2 0", "done 0"), ("work 2 0 a", "done 0")]);
    // "a work opening's record is its user's own, of the same species".
    check(&mut desk, &[("poke tables 3652 4", "cell 4"), ("species 2 0", "refused 20")]);
}

/// E = 128: a file of 4,096 elements holds 32 segments, one of 4,097 cannot be.
#[test]
fn held_segments() {
    let mut desk = fresh_desk(64 * 40);
    check(&mut desk, &[("new 0 0 6", "done 0"), ("poke tables 3206 4097", "cell 4097"), ("free 0", "refused 20")]);
    for (place, segment) in (1..32).zip(1..32) {
        let poke = format!("poke tables {} {}", 3201 + 24 + place, segment);
        check(&mut desk, &[(&poke, &format!("cell {}", segment))]);
    }
    check(&mut desk, &[("free 0", "done 8"), ("claim 0 0", "done 4096"), ("prev_signed 0 0 1", "done 0")]);
    check(&mut desk, &[("poke tables 3206 4098", "cell 4098"), ("free 0", "refused 20")]);
}
