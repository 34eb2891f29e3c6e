//! Write.
use super::free::lowest_free;
use super::layout::{self, opening, Opening};
use super::lists::of_record;
use super::numbers::Number;
use super::openings::{drop_first, holds};
use super::placing::{held, offset, put_element, segment_mut, stretch, GREATEST_END, MOST_HELD, SEGMENT_CELLS};
use super::{gate, Answer, Refusal};

/// "Write: v < b is 6; p not 1 and v >= e is 7. Through 1: append, e grows by 1. Through 0: the first element is dropped, no
/// segment is taken and no store cell changes. Else position v is replaced. v grows by 1."
pub fn write<N: Number>(
    store: &mut [u32],
    tables: &mut [u32],
    user: u32,
    entry: u32,
    pointer: u32,
    number: N,
) -> Answer {
    let at = gate::pointer::<N>(store, tables, user, entry, pointer, true)?;
    let value = position(layout::opening(tables, at), pointer, number)?;
    if pointer == 0 {
        drop_first(layout::opening_mut(tables, at), 1);
        return Ok(0);
    }
    let segment = segment_for(store, tables, at, value, lowest_free)?;
    let cells = layout::opening_mut(tables, at);
    let species = cells[opening::SPECIES];
    put_element(segment_mut(store, segment), species, offset(species, value), number.bits());
    cells[opening::POINTERS + pointer as usize] = value + 1;
    Ok(0)
}

/// The position to be written through a pointer that the opening has, unless it is refused: "6, 7, 10, 8", and 23 "after 7 and before 10".
pub fn position<N: Number>(cells: &Opening, pointer: u32, number: N) -> Answer {
    let (species, begin, end) = (cells[opening::SPECIES], cells[opening::BEGIN], cells[opening::END]);
    let value = cells[opening::POINTERS + pointer as usize];
    if value < begin {
        return Err(Refusal::Below);
    }
    if pointer != 1 && value >= end {
        return Err(Refusal::Beyond);
    }
    if !number.fits(species) {
        return Err(Refusal::TooWide);
    }
    if pointer == 1 && end == GREATEST_END {
        return Err(Refusal::Positions);
    }
    if pointer == 1 && held(species, begin, end + 1) > MOST_HELD {
        return Err(Refusal::Segments);
    }
    Ok(value)
}

/// The opening's own segment for a position: held, or taken and zeroed, or taken and copied.
pub fn segment_for(
    store: &mut [u32],
    tables: &mut [u32],
    at: usize,
    position: u32,
    lowest_free: impl FnOnce(&[u32]) -> Option<u32>,
) -> Answer {
    let cells = layout::opening(tables, at);
    let species = cells[opening::SPECIES];
    let place = (stretch(species, position) - stretch(species, cells[opening::BEGIN])) as usize;
    let own = cells[opening::SEGMENTS][place];
    let is_held = place < holds(cells);
    if is_held && !shared(tables, cells, own) {
        return Ok(own);
    }
    let taken = lowest_free(tables).ok_or(Refusal::Room)?;
    if is_held {
        store.copy_within(cells_of(own), cells_of(taken).start);
    } else {
        store[cells_of(taken)].fill(0);
    }
    layout::opening_mut(tables, at)[opening::SEGMENTS][place] = taken;
    Ok(taken)
}

fn cells_of(segment: u32) -> std::ops::Range<usize> {
    let start = segment as usize * SEGMENT_CELLS;
    start..start + SEGMENT_CELLS
}

/// "A work opening of an old file shares the record's segments until it changes one"
fn shared(tables: &[u32], cells: &Opening, segment: u32) -> bool {
    if cells[opening::PLACE] == 0 {
        return false;
    }
    of_record(layout::record(tables, cells[opening::PLACE] as usize - 1)).contains(&segment)
}
