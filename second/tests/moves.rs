//! "We need a move from 897 lent cells to 961 and one back": moves that are done, and what they write.

mod common;

use common::images::{cells_of, check_done, image, poke, put, ready, record, soil, Numbers, DOWN, UP};
use common::{answer, check, fresh_desk};
use filing::text::answering::Desk;

const OLD_LAST: u32 = 16_777_215;

/// "Up then down gives the same cells; down, where done, then up too": the same records in both forms.
fn check_both_ways(segments: u32, records: &[(usize, Numbers)]) {
    let mut desk = Desk::new();
    for way in [UP, DOWN] {
        ready(&mut desk, way, &image(way.from, segments, records));
        check_done(&mut desk, &way.line(segments), &image(way.to, segments, records));
        check_done(&mut desk, &way.line(1024), &image(way.to, segments, records));
    }
}

/// "the cells printed in 01 stay true of form 1": a fresh start, and the private file "a" of user 2.
#[test]
fn the_images_of_document_01() {
    let fresh: [&[u32]; 2] = [&[0x0110_0000], &[0x0210_0000]];
    let old_file = [0x0110_0000, 0x95FF_FFFF, 0xFFFF_FFFF, 0xFFAD_0000, 0x0100_0002];
    let new_file = [0x0210_0000, 0x95FF_FFFF, 0xFFFF_FFFF, 0xFFAD_0000, 0x0001_0000, 0x0002_0000];
    for [old, new] in [fresh, [&old_file, &new_file]] {
        let whole = |cells: &[u32], length: usize| [cells, &vec![0; length - cells.len()]].concat();
        let (old, new) = (whole(old, 897), whole(new, 961));
        let mut desk = Desk::new();
        ready(&mut desk, UP, &old);
        check_done(&mut desk, "up 0 1 128", &new);
        ready(&mut desk, DOWN, &new);
        check_done(&mut desk, "down 0 1 128", &old);
    }
}

/// "Species 6 moves both ways", and so do all others.
#[test]
fn every_species() {
    for species in 0..7 {
        check_both_ways(128, &[(0, record(10, species, (1, 2), &[127]))]);
        check_both_ways(1, &[(63, record(10, species, (7, 7), &[]))]);
    }
}

/// "every begin and end is at most 16,777,215". 16,777,216 is the last position of a stretch in every species.
#[test]
fn bounds_up_to_the_old_limit() {
    for (begin, end) in [(OLD_LAST, OLD_LAST), (OLD_LAST - 1, OLD_LAST), (1, 1), (OLD_LAST - 2, OLD_LAST - 1)] {
        for species in [0, 3, 5, 6] {
            let segments: &[u32] = if begin < end { &[9] } else { &[] };
            check_both_ways(10, &[(0, record(35, species, (begin, end), segments)), (1, record(0, 5, (1, 1), &[]))]);
        }
    }
}

/// A file in every place, all 32 numbers of a list, every owner, and names that others have too.
#[test]
fn full_images() {
    let records: Vec<(usize, Numbers)> = (0..64)
        .map(|place: usize| {
            let first = place as u32 * 16;
            let segments: Vec<u32> = (0..16).map(|segment| 1023 - first - segment).collect();
            let mut numbers = record(place as u32 / 2, 5, (64 * 5 + 64, 64 * 5 + 64 * 15 + 2), &segments);
            numbers[13] = place as u32 % 8;
            numbers[14] = u32::from(place % 8 != 3);
            (place, numbers)
        })
        .collect();
    check_both_ways(1024, &records);
    let long: Vec<u32> = (0..32).map(|segment| 1023 - 7 * segment).collect();
    check_both_ways(1024, &[(0, record(1, 5, (64, 64 + 31 * 64), &long)), (62, record(2, 0, (1, 3), &[1]))]);
}

/// "Judge soundness with the store's segment count given as a number": any of 32 bits. 64 times 67,108,864 is 2^32.
#[test]
fn stores_with_room() {
    for segments in [1, 2, 127, 128, 1023, 1024] {
        let more = [segments, segments + 1, 1024, 64 * segments, 67_108_864, 67_108_864 + segments - 1];
        let much_more = [65_536, 2_147_483_647, 2_147_483_648, 4_294_967_294, 4_294_967_295];
        for way in [UP, DOWN] {
            let mut desk = Desk::new();
            let file = record(10, 5, (1, 2), &[segments - 1]);
            ready(&mut desk, way, &image(way.from, segments, &[(0, file)]));
            for number in more.into_iter().chain(much_more) {
                soil(&mut desk, 1, way.to.length());
                check_done(&mut desk, &way.line(number), &image(way.to, segments, &[(0, file)]));
            }
        }
    }
}

/// A store with the file 10, 20 of user 2, one of degrees below zero, and one that user 1 has open; saved to image 0.
fn desk_with_saved_files() -> Desk {
    let mut desk = fresh_desk(8192);
    check(&mut desk, &[("new 2 0 5", "done 0"), ("write 2 0 1 10", "done 0"), ("write 2 0 1 20", "done 0")]);
    check(&mut desk, &[("rename 2 0 a", "done 0"), ("close 2 0", "done 0"), ("new 1 0 6", "done 0")]);
    check(&mut desk, &[("write_signed 1 0 1 -5", "done 0"), ("rename 1 0 cold", "done 0"), ("public 1 0", "done 0")]);
    check(&mut desk, &[("new 1 0 3", "done 0"), ("write 1 0 1 7", "done 0"), ("save 0", "done 0")]);
    desk
}

#[test]
fn saved_moved_down_and_up_and_loaded() {
    let mut desk = desk_with_saved_files();
    let saved = answer(&mut desk, "sum image0");
    check(&mut desk, &[("lend image2 897", "lent 897"), ("down 0 2 128", "done 0"), ("up 2 3 128", "done 0")]);
    check(&mut desk, &[("sum image3", &saved), ("sum image0", &saved), ("fresh", "done 0"), ("load 3", "done 0")]);
    check(&mut desk, &[("read 2 0 a", "done 0"), ("next 2 0 2", "done 10"), ("next 2 0 2", "done 20")]);
    check(&mut desk, &[("read 3 0 cold", "done 0"), ("next_signed 3 0 2", "done -5"), ("free 0", "done 126")]);
}

/// "Load takes a 961-cell form 2 image only", after the moves too.
#[test]
fn an_old_image_is_loaded_when_moved_up() {
    let mut desk = fresh_desk(8192);
    put(&mut desk, 0, &image(UP.from, 100, &[(5, record(10, 5, (1, 3), &[99]))]));
    check(&mut desk, &[("poke store 6336 77", "cell 77"), ("load 0", "refused 22"), ("up 0 1 128", "done 0")]);
    check(&mut desk, &[("load 0", "refused 22"), ("load 1", "done 0"), ("free 0", "done 99")]);
    check(&mut desk, &[("read 2 0 a", "done 0"), ("next 2 0 2", "done 77"), ("peek tables 0", "cell 100")]);
}

#[test]
fn an_old_empty_image() {
    let mut desk = fresh_desk(64);
    put(&mut desk, 3, &[&[0x0100_2000], &[0; 896][..]].concat());
    check(&mut desk, &[("up 3 2 1", "done 0"), ("load 2", "done 0"), ("free 0", "done 1")]);
    check(&mut desk, &[("lend image1 897", "lent 897"), ("down 2 1 1", "done 0"), ("peek image1 0", "cell 16785408")]);
    assert_eq!(answer(&mut desk, "sum image1"), answer(&mut desk, "sum image3"));
}

/// A move is lent neither store nor tables: it is never answered 20, and it leaves both as they are.
#[test]
fn whatever_the_tables_hold() {
    let unfit: [&[&str]; 6] = [
        &["poke tables 0 0"],
        &["poke tables 0 1025"],
        &["poke tables 3201 2"],
        &["lend tables 4992"],
        &["lend store 63"],
        &["lend tables 0", "lend store 0"],
    ];
    for lines in unfit {
        let mut desk = desk_with_saved_files();
        lines.iter().for_each(|line| assert!(!answer(&mut desk, line).starts_with('?')));
        check(&mut desk, &[("free 0", "refused 20"), ("save 1", "refused 20")]);
        let saved = cells_of(&desk, 0)[..961].to_vec();
        soil(&mut desk, 1, 897);
        check(&mut desk, &[("down 0 1 127", "refused 22"), ("down 0 1 128", "done 0"), ("up 1 2 127", "refused 22")]);
        let old = cells_of(&desk, 1)[..897].to_vec();
        ready(&mut desk, UP, &old);
        check_done(&mut desk, "up 0 1 128", &saved);
        // The begin 16,777,217 and the end 16,777,219 in place of 1 and 3.
        poke(&mut desk, 1, 3, 0xFFAD_0100);
        poke(&mut desk, 1, 4, 0x0001_0100);
        check(&mut desk, &[("lend image0 897", "lent 897"), ("down 1 0 128", "refused 24"), ("free 0", "refused 20")]);
    }
}
