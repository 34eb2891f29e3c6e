//! Files with free segments below theirs, for tidying.

use super::{check, fresh_desk};
use filing::cells::fields::{record as of_record, record_cells};
use filing::rules::sizes::SEGMENT_CELLS;
use filing::text::answering::Desk;
use filing::text::line::BufferName;

/// User 0 closes a new file of this name that holds one segment, with this element first.
pub fn make(desk: &mut Desk, name: &str, element: u32) {
    for line in ["new 0 0 5", "write 0 0 1 X", "rename 0 0 NAME", "close 0 0"] {
        check(desk, &[(&line.replace('X', &element.to_string()).replace("NAME", name), "done 0")]);
    }
}

/// "Old work renamed to scratch: its record and all segments are freed."
pub fn remove(desk: &mut Desk, name: &str) {
    for line in ["work 0 0 NAME", "rename 0 0", "close 0 0"] {
        check(desk, &[(&line.replace("NAME", name), "done 0")]);
    }
}

/// Files "b", "d" and "e" in segments 1, 3 and 4 of seven, at places 1, 3 and 4. Segments 0 and 2 were other files'.
pub fn scattered_desk() -> Desk {
    let mut desk = fresh_desk(7 * SEGMENT_CELLS);
    for (name, element) in [("a", 10), ("b", 11), ("c", 12), ("d", 13), ("e", 14)] {
        make(&mut desk, name, element);
    }
    remove(&mut desk, "a");
    remove(&mut desk, "c");
    desk
}

/// The tables' cell that has the first segment number of a record.
pub fn list_cell(place: usize) -> usize {
    record_cells(place).start + of_record::LIST.start
}

/// The store's cells and the tables', lent or not.
pub fn all_cells(desk: &Desk) -> [Vec<u32>; 2] {
    [BufferName::Store, BufferName::Tables].map(|buffer| desk.cells(buffer).into_owned())
}
