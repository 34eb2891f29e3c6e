//! "Every file reads the same afterwards", whatever made room below its segments, and by images too.

mod common;

use common::lists::{check_cells, put_into_list0};
use common::scattered::{list_cell, make, remove, scattered_desk};
use common::{answer, check, fresh_desk};
use filing::cells::fields::record as of_record;
use filing::cells::image::SAVED_FORM;
use filing::rules::sizes::SEGMENT_CELLS;
use filing::text::answering::Desk;
use filing::text::line::BufferName;

/// Files of species 5, 4 and 3 grow by turns to 520 elements each and are closed as "f0" to "f2" at places 0 to 2. They
/// hold segments 0 1 2 6 7 10 11 13 14, 3 4 8 12 15, and 5 9 16.
fn desk_with_alternating_files() -> Desk {
    let mut desk = fresh_desk(30 * SEGMENT_CELLS);
    for line in ["new 0 0 5", "new 0 1 4", "new 0 2 3"] {
        check(&mut desk, &[(line, "done 0")]);
    }
    for turn in 0..4 {
        // Eight bits take them all.
        let numbers: Vec<u32> = (0..130).map(|number| (7 * number + turn) % 256).collect();
        put_into_list0(&mut desk, &numbers);
        for line in ["writes 0 0 1 0", "writes 0 1 1 0", "writes 0 2 1 0"] {
            check(&mut desk, &[(line, "rest 0 0")]);
        }
    }
    for line in ["rename 0 0 f0", "close 0 0", "rename 0 1 f1", "close 0 1", "rename 0 2 f2", "close 0 2"] {
        check(&mut desk, &[(line, "done 0")]);
    }
    check(&mut desk, &[("free 0", "done 13"), ("tidy", "done 0")]);
    desk
}

/// What somebody reads: the bounds, and the elements from the begin to the end.
fn read_through(desk: &mut Desk, name: &str) -> ([String; 3], Vec<u32>) {
    check(desk, &[(&format!("read 0 0 {}", name), "done 0"), ("lend list1 2112", "lent 2112")]);
    let answers = ["begin 0 0", "end 0 0", "nexts 0 0 2 1"].map(|line| answer(desk, line));
    check(desk, &[("close 0 0", "done 0")]);
    let filled = answers[2].split(' ').nth(1).and_then(|count| count.parse().ok()).expect("how many were filled");
    (answers, desk.cells(BufferName::List(1))[..filled].to_vec())
}

/// Tidying moves so many segments, and what is read is the same before and after, and after a load of what was saved.
fn check_tidied(desk: &mut Desk, names: &[&str], moved: usize) {
    let read_all = |desk: &mut Desk| names.iter().map(|name| read_through(desk, name)).collect::<Vec<_>>();
    let before = read_all(desk);
    check(desk, &[("tidy", &format!("done {}", moved * SEGMENT_CELLS))]);
    assert_eq!(read_all(desk), before);
    check(desk, &[("tidy", "done 0"), ("save 2", "done 0"), ("fresh", "done 0"), ("load 2", "done 0")]);
    assert_eq!(read_all(desk), before);
}

fn check_list(desk: &mut Desk, place: usize, segments: &[u32]) {
    check_cells(desk, "tables", list_cell(place), segments);
}

#[test]
fn after_a_file_was_removed() {
    let mut desk = desk_with_alternating_files();
    remove(&mut desk, "f0");
    check_tidied(&mut desk, &["f1", "f2"], 5);
    // 8 9 12 15 16 have gone to 0 1 2 6 7.
    check_list(&mut desk, 1, &[3, 4, 0, 2, 6, 0]);
    check_list(&mut desk, 2, &[5, 1, 7, 0]);
}

#[test]
fn after_a_file_was_shortened() {
    let mut desk = desk_with_alternating_files();
    check(&mut desk, &[("work 0 0 f0", "done 0"), ("lend list0 64", "lent 64"), ("writes 0 0 0 0", "rest 0 0")]);
    for _ in 0..8 {
        assert!(answer(&mut desk, "prev 0 0 1").starts_with("done"));
    }
    check(&mut desk, &[("close 0 0", "done 0"), ("free 0", "done 15")]);
    check_tidied(&mut desk, &["f0", "f1", "f2"], 2);
    // 15 and 16 have gone to 0 and 14.
    check_list(&mut desk, 0, &[1, 2, 6, 7, 10, 11, 13, 0]);
    check_list(&mut desk, 1, &[3, 4, 8, 12, 0]);
    check_list(&mut desk, 2, &[5, 9, 14, 0]);
}

/// "before a write into a shared segment, that segment is copied to a taken one", here 5 to 17.
#[test]
fn after_a_file_was_changed() {
    let mut desk = desk_with_alternating_files();
    check(&mut desk, &[("work 0 0 f2", "done 0"), ("reset 0 0", "done 0"), ("write 0 0 2 99", "done 0")]);
    check(&mut desk, &[("close 0 0", "done 0"), ("free 0", "done 13")]);
    check_list(&mut desk, 2, &[17, 9, 16, 0]);
    check_tidied(&mut desk, &["f0", "f1", "f2"], 1);
    check_list(&mut desk, 2, &[5, 9, 16, 0]);
}

#[test]
fn after_a_new_file_was_abandoned() {
    let mut desk = desk_with_alternating_files();
    check(&mut desk, &[("new 1 0 0", "done 0"), ("write 1 0 1 1", "done 0")]);
    make(&mut desk, "g", 77);
    check(&mut desk, &[("abandon 1 0", "done 0")]);
    check_list(&mut desk, 3, &[18, 0]);
    check_tidied(&mut desk, &["f0", "f1", "f2", "g"], 1);
    check_list(&mut desk, 3, &[17, 0]);
}

/// A file emptied is a record without segments.
#[test]
fn after_a_file_was_emptied() {
    let mut desk = desk_with_alternating_files();
    check(&mut desk, &[("work 0 0 f1", "done 0"), ("lend list0 520", "lent 520"), ("nexts 0 0 0 0", "filled 520 0")]);
    check(&mut desk, &[("close 0 0", "done 0"), ("free 0", "done 18")]);
    check_tidied(&mut desk, &["f0", "f1", "f2"], 3);
    // 13 14 16 have gone to 3 4 8.
    check_list(&mut desk, 0, &[0, 1, 2, 6, 7, 10, 11, 3, 4, 0]);
    check_list(&mut desk, 1, &[0]);
    check_list(&mut desk, 2, &[5, 9, 8, 0]);
}

#[test]
fn the_image_saved_afterwards() {
    let mut desk = scattered_desk();
    check(&mut desk, &[("tidy", "done 128"), ("save 0", "done 0")]);
    let image = desk.cells(BufferName::Image(0)).into_owned();
    let record = |place| SAVED_FORM.unpacked_record(&image[SAVED_FORM.cells_of(place)]);
    let first_segments = [1, 3, 4].map(|place| record(place).numbers[of_record::LIST.start]);
    assert_eq!(first_segments, [1, 0, 2]);
    check(&mut desk, &[("fresh", "done 0"), ("load 0", "done 0"), ("tidy", "done 0"), ("free 0", "done 4")]);
    check(&mut desk, &[("read 0 0 d", "done 0"), ("next 0 0 2", "done 13"), ("next 0 0 2", "refused 7")]);
}

/// As segments left behind keep their cells, an image saved before still says the same files, scattered as they were.
#[test]
fn the_image_saved_before() {
    let mut desk = scattered_desk();
    check(&mut desk, &[("save 1", "done 0"), ("tidy", "done 128"), ("load 1", "done 0")]);
    check_list(&mut desk, 3, &[3, 0]);
    check_tidied(&mut desk, &["b", "d", "e"], 2);
    check_list(&mut desk, 3, &[0, 0]);
}

/// Work goes on in the new places: the record's segment is copied before it is changed, and left as it is.
#[test]
fn work_afterwards() {
    let mut desk = scattered_desk();
    check(&mut desk, &[("tidy", "done 128"), ("work 0 0 e", "done 0"), ("write 0 0 1 20", "done 0")]);
    check_cells(&mut desk, "store", 2 * SEGMENT_CELLS, &[14, 0]);
    check_cells(&mut desk, "store", 3 * SEGMENT_CELLS, &[14, 20]);
    check(&mut desk, &[("abandon 0 0", "done 0"), ("tidy", "done 0"), ("read 0 0 e", "done 0")]);
    check(&mut desk, &[("next 0 0 2", "done 14"), ("next 0 0 2", "refused 7")]);
}
