//! Next, prev, and the value of a pointer.
use super::layout::{self, opening, Opening};
use super::numbers::Number;
use super::openings::{self, drop_first, drop_last};
use super::placing::{self, element, offset, segment, stretch};
use super::{gate, Answer, Refusal};

/// The number at a position of the file.
fn delivered<N: Number>(store: &[u32], cells: &Opening, position: u32) -> N {
    let species = cells[opening::SPECIES];
    let place = stretch(species, position) - stretch(species, cells[opening::BEGIN]);
    N::of(element(segment(store, cells[opening::SEGMENTS][place as usize]), species, offset(species, position)))
}

/// The inquiry that is measured: each is the gate and a look.
pub fn value(store: &[u32], tables: &[u32], user: u32, entry: u32, pointer: u32) -> Answer {
    let at = gate::open_entry(store, tables, user, entry)?;
    openings::value(layout::opening(tables, at), pointer)
}

/// The inquiry that computes something.
pub fn claim(store: &[u32], tables: &[u32], user: u32, entry: u32) -> Answer {
    let at = gate::open_entry(store, tables, user, entry)?;
    let cells = layout::opening(tables, at);
    Ok(placing::claim(cells[opening::SPECIES], cells[opening::BEGIN], cells[opening::END]))
}

/// "Next: v < b is 6, v >= e is 7. Delivers position v, v grows. Through 0 the element leaves the file."
pub fn next<N: Number>(store: &[u32], tables: &mut [u32], user: u32, entry: u32, pointer: u32) -> Result<N, Refusal> {
    let at = gate::pointer::<N>(store, tables, user, entry, pointer, pointer == 0)?;
    let cells = layout::opening_mut(tables, at);
    let value = cells[opening::POINTERS + pointer as usize];
    if value < cells[opening::BEGIN] {
        return Err(Refusal::Below);
    }
    if value >= cells[opening::END] {
        return Err(Refusal::Beyond);
    }
    let number = delivered(store, cells, value);
    if pointer == 0 {
        drop_first(cells, 1);
    } else {
        cells[opening::POINTERS + pointer as usize] = value + 1;
    }
    Ok(number)
}

/// "Prev: v <= b is 6, v > e is 7. v falls by 1, delivers that position. Through 1 the element leaves the file."
pub fn prev<N: Number>(store: &[u32], tables: &mut [u32], user: u32, entry: u32, pointer: u32) -> Result<N, Refusal> {
    let at = gate::pointer::<N>(store, tables, user, entry, pointer, pointer == 1)?;
    let cells = layout::opening_mut(tables, at);
    let value = cells[opening::POINTERS + pointer as usize];
    if value <= cells[opening::BEGIN] {
        return Err(Refusal::Below);
    }
    if value > cells[opening::END] {
        return Err(Refusal::Beyond);
    }
    let number = delivered(store, cells, value - 1);
    if pointer == 1 {
        drop_last(cells);
    } else {
        cells[opening::POINTERS + pointer as usize] = value - 1;
    }
    Ok(number)
}
