//! "A lent image of the wrong length, either one, is 22, and 22 comes before 24. Refusals write nothing."

mod common;

use common::images::{check_done, check_refused, image, lend, ready, record, Numbers, Way, DOWN, UP};
use filing::text::answering::Desk;

const OLD_LAST: u32 = 16_777_215;
const LAST: u32 = 4_294_967_295;

fn a_file() -> (usize, Numbers) {
    (0, record(10, 5, (1, 2), &[127]))
}

/// Sound, but the old form has no bits for its end.
fn a_wide_file() -> (usize, Numbers) {
    (40, record(11, 5, (OLD_LAST, OLD_LAST + 1), &[3]))
}

/// These records in an image for 128 segments, which is ready to be moved.
fn desk_with(way: Way, records: &[(usize, Numbers)]) -> Desk {
    let mut desk = Desk::new();
    ready(&mut desk, way, &image(way.from, 128, records));
    desk
}

fn check_wrong_lengths(way: Way, records: &[(usize, Numbers)], right_answer: &str) {
    let mut desk = desk_with(way, records);
    for (buffer, right) in [(0, way.from.length()), (1, way.to.length())] {
        for length in [right - 1, right + 1, 0, 1, 64, 896, 897, 898, 960, 961, 962, 1024] {
            lend(&mut desk, buffer, length);
            let wanted = if length == right { right_answer } else { "refused 22" };
            match wanted {
                "done 0" => check_done(&mut desk, &way.line(128), &image(way.to, 128, records)),
                _ => check_refused(&mut desk, &way.line(128), wanted),
            }
        }
        lend(&mut desk, buffer, right);
    }
    // Both as the other way wants them.
    lend(&mut desk, 0, way.to.length());
    lend(&mut desk, 1, way.from.length());
    check_refused(&mut desk, &way.line(128), "refused 22");
}

#[test]
fn lengths_of_either() {
    check_wrong_lengths(UP, &[a_file()], "done 0");
    check_wrong_lengths(DOWN, &[a_file()], "done 0");
    check_wrong_lengths(DOWN, &[a_file(), a_wide_file()], "refused 24");
}

/// The number is one of segments, and none of cells.
#[test]
fn stores_without_room() {
    for segments in [1, 2, 64, 128, 1024] {
        for way in [UP, DOWN] {
            let mut desk = Desk::new();
            ready(&mut desk, way, &image(way.from, segments, &[]));
            for number in [segments - 1, segments / 2, segments / 64 % segments, 0] {
                check_refused(&mut desk, &way.line(number), "refused 22");
            }
            check_done(&mut desk, &way.line(segments), &image(way.to, segments, &[]));
        }
    }
    let mut desk = desk_with(DOWN, &[a_wide_file()]);
    for (number, wanted) in [(127, "refused 22"), (0, "refused 22"), (128, "refused 24"), (LAST, "refused 24")] {
        check_refused(&mut desk, &DOWN.line(number), wanted);
    }
}

/// "1 to 1,024 segments": more are none, whatever the store has.
#[test]
fn numbers_of_segments_in_the_image() {
    for way in [UP, DOWN] {
        for segments in [0, 1025, 1026, 2047] {
            let mut desk = Desk::new();
            ready(&mut desk, way, &image(way.from, segments, &[]));
            for number in [segments, 1024, 2048, 131_072, LAST] {
                check_refused(&mut desk, &way.line(number), "refused 22");
            }
        }
    }
}

/// "moves down exactly if every begin and end is at most 16,777,215, else refusal 24".
#[test]
fn too_wide() {
    let end_alone = [(OLD_LAST, OLD_LAST + 1), (OLD_LAST, OLD_LAST + 2), (OLD_LAST - 9, OLD_LAST + 1)];
    let both = [(OLD_LAST + 1, OLD_LAST + 2), (OLD_LAST + 2, OLD_LAST + 3), (1 << 25, (1 << 25) + 1), (LAST - 1, LAST)];
    for bounds in end_alone.into_iter().chain(both) {
        for place in [1, 40, 63] {
            let mut desk = desk_with(DOWN, &[a_file(), (place, record(11, 5, bounds, &[3]))]);
            check_refused(&mut desk, &DOWN.line(128), "refused 24");
        }
    }
    for position in [OLD_LAST + 1, OLD_LAST + 2, 1 << 24 | 1 << 31, 33_554_431, LAST] {
        let mut desk = desk_with(DOWN, &[a_file(), (2, record(11, 6, (position, position), &[]))]);
        check_refused(&mut desk, &DOWN.line(128), "refused 24");
    }
    // Over two segments, the second of which begins with position 16,777,217.
    let mut desk = desk_with(DOWN, &[(7, record(11, 6, (OLD_LAST, OLD_LAST + 3), &[3, 4])), a_file()]);
    check_refused(&mut desk, &DOWN.line(128), "refused 24");
}

/// The one above the limit that is no end: a file up to the last position there was.
#[test]
fn just_not_too_wide() {
    let records = [a_file(), (1, record(11, 5, (OLD_LAST - 1, OLD_LAST), &[3]))];
    let mut desk = desk_with(DOWN, &records);
    check_done(&mut desk, &DOWN.line(128), &image(DOWN.to, 128, &records));
}

/// One image is not the other's form, not even an empty one with the other's length.
#[test]
fn the_other_form() {
    for way in [UP, DOWN] {
        for number in [0, way.to.number, 3, 128 + way.from.number, 255] {
            for records in [&[][..], &[a_file()]] {
                let mut cells = image(way.from, 128, records);
                cells[0] = number << 24 | 128 << 13;
                let mut desk = Desk::new();
                ready(&mut desk, way, &cells);
                check_refused(&mut desk, &way.line(128), "refused 22");
            }
        }
    }
}
