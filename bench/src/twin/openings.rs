//! What next, prev and write do with an opening's cells.
use super::layout::{opening, Opening};
use super::placing::{held, MOST_HELD};
use super::Refusal;

/// The value of a pointer that exists.
pub fn value(cells: &Opening, pointer: u32) -> Result<u32, Refusal> {
    if pointer > 7 {
        return Err(Refusal::Pointer);
    }
    match cells[opening::POINTERS + pointer as usize] {
        0 => Err(Refusal::Pointer),
        value => Ok(value),
    }
}

/// How many segments the opening holds.
pub fn holds(cells: &Opening) -> usize {
    held(cells[opening::SPECIES], cells[opening::BEGIN], cells[opening::END]) as usize
}

/// The first elements leave the file, and so do the segments where no other is.
pub fn drop_first(cells: &mut Opening, many: u32) {
    let before = holds(cells);
    cells[opening::BEGIN] += many;
    let left = before - holds(cells);
    if left > 0 {
        let list = &mut cells[opening::SEGMENTS];
        list.copy_within(left.., 0);
        list[MOST_HELD as usize - left..].fill(0);
    }
}

/// The last element leaves the file likewise.
pub fn drop_last(cells: &mut Opening) {
    let before = holds(cells);
    cells[opening::END] -= 1;
    if holds(cells) < before {
        cells[opening::SEGMENTS][before - 1] = 0;
    }
}
