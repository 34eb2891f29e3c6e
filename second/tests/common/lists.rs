//! Files and lists for runs.

use super::{answer, check, fresh_desk};
use filing::text::answering::Desk;

/// Lends the first cells of list 0 and puts these numbers there.
pub fn put_into_list0(desk: &mut Desk, numbers: &[u32]) {
    let length = numbers.len();
    check(desk, &[(&format!("lend list0 {}", length), &format!("lent {}", length))]);
    for (cell, number) in numbers.iter().enumerate() {
        check(desk, &[(&format!("poke list0 {} {}", cell, number), &format!("cell {}", number))]);
    }
}

pub fn check_cells(desk: &mut Desk, buffer: &str, first: usize, wanted: &[u32]) {
    for (offset, number) in wanted.iter().enumerate() {
        let cell = first + offset;
        assert_eq!(answer(desk, &format!("peek {} {}", buffer, cell)), format!("cell {}", number), "cell {}", cell);
    }
}

/// A store of so many segments with a new file of species 5 in user 0's entry 0, which holds these elements.
pub fn desk_with(segments: usize, elements: &[u32]) -> Desk {
    let mut desk = fresh_desk(64 * segments);
    check(&mut desk, &[("new 0 0 5", "done 0")]);
    put_into_list0(&mut desk, elements);
    check(&mut desk, &[("writes 0 0 1 0", "rest 0 0")]);
    desk
}

/// The file is closed as "a" and opened again, so that all its segments are shared.
pub fn close_and_open(desk: &mut Desk, word: &str) {
    let open = format!("{} 0 0 a", word);
    check(desk, &[("rename 0 0 a", "done 0"), ("close 0 0", "done 0"), (&open, "done 0")]);
}
