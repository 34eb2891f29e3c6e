//! The segments that records and openings of sound tables list, and marks for them.
use super::layout::{opening, record, Opening, Record};
use super::placing::held;
use super::soundness::MOST_SEGMENTS;

/// The numbers of the held segments, by rising stretch.
pub fn of_record(cells: &Record) -> &[u32] {
    let held = held(cells[record::SPECIES], cells[record::BEGIN], cells[record::END]);
    &cells[record::SEGMENTS][..held as usize]
}

pub fn of_opening(cells: &Opening) -> &[u32] {
    let held = held(cells[opening::SPECIES], cells[opening::BEGIN], cells[opening::END]);
    &cells[opening::SEGMENTS][..held as usize]
}

/// 1 for each segment that is marked.
pub type Marks = [u8; MOST_SEGMENTS as usize];

pub const NONE_MARKED: Marks = [0; MOST_SEGMENTS as usize];

/// Marks the segments of a list, whether they are marked already or not.
pub fn mark(marks: &mut Marks, list: &[u32]) {
    for &segment in list {
        // no segment is past the marks, and so the compiler knows it
        marks[segment as usize % marks.len()] = 1;
    }
}

/// How many are marked. A sum for each place of a row, which the compiler makes wide: there are so few rows that none goes beyond a byte.
pub fn count(marks: &Marks) -> u32 {
    let mut sums = [0u8; 32];
    for row in marks.chunks_exact(sums.len()) {
        for (sum, mark) in sums.iter_mut().zip(row) {
            *sum += mark;
        }
    }
    sums.iter().map(|&sum| u32::from(sum)).sum()
}
