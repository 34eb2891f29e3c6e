//! Document 02, P1: runs of elements. The tables are judged once, and then a stretch at a time is written or filled.
use super::layout::{self, opening, Opening};
use super::means::Means;
use super::numbers::fitting;
use super::openings::drop_first;
use super::placing::{offset, rest_of_stretch, segment, segment_mut, stretch, GREATEST_END};
use super::write::{position, segment_for};
use super::{gate, Refusal};

/// How many elements a run came to, and what stopped it.
pub struct Ran {
    pub many: usize,
    pub stop: Option<Refusal>,
}

impl From<Refusal> for Ran {
    fn from(refusal: Refusal) -> Ran {
        Ran { many: 0, stop: Some(refusal) }
    }
}

/// "write a lent list of elements through one pointer"
pub fn write_run<M: Means>(
    store: &mut [u32],
    tables: &mut [u32],
    user: u32,
    entry: u32,
    pointer: u32,
    list: &[u32],
) -> Ran {
    match gate::pointer::<u32>(store, tables, user, entry, pointer, true) {
        Err(refusal) => refusal.into(),
        Ok(at) if pointer == 0 => drop_run(layout::opening_mut(tables, at), list),
        Ok(at) => write_stretches::<M>(store, tables, at, pointer, list),
    }
}

/// Through pointer 0: the first elements are dropped, all at once.
fn drop_run(cells: &mut Opening, list: &[u32]) -> Ran {
    let elements = cells[opening::END] - cells[opening::BEGIN];
    let most = list.len().min(elements as usize);
    let many = fitting(cells[opening::SPECIES], &list[..most]);
    drop_first(cells, many as u32);
    let stop = if many < most { Refusal::TooWide } else { Refusal::Beyond };
    Ran { many, stop: (many < list.len()).then_some(stop) }
}

fn write_stretches<M: Means>(store: &mut [u32], tables: &mut [u32], at: usize, pointer: u32, list: &[u32]) -> Ran {
    let mut means = M::default();
    let mut many = 0;
    while many < list.len() {
        match write_stretch(&mut means, store, tables, at, pointer, &list[many..]) {
            Ok(written) => many += written,
            Err(refusal) => return Ran { many, stop: Some(refusal) },
        }
    }
    Ran { many, stop: None }
}

/// As many elements as the pointer's stretch takes, or as come before one that is too wide, and at least one; how many these are.
fn write_stretch<M: Means>(
    means: &mut M,
    store: &mut [u32],
    tables: &mut [u32],
    at: usize,
    pointer: u32,
    list: &[u32],
) -> Result<usize, Refusal> {
    let value = position(layout::opening(tables, at), pointer, list[0])?;
    let number = segment_for(store, tables, at, value, |tables| means.lowest_free(tables))?;
    let cells = layout::opening_mut(tables, at);
    let species = cells[opening::SPECIES];
    let limit = if pointer == 1 { GREATEST_END } else { cells[opening::END] };
    let most = list.len().min(rest_of_stretch(species, value).min(limit - value) as usize);
    let many = fitting(species, &list[..most]);
    M::put(segment_mut(store, number), species, offset(species, value), &list[..many]);
    cells[opening::POINTERS + pointer as usize] = value + many as u32;
    Ok(many)
}

/// "fill a lent list by next"
pub fn fill_run<M: Means>(
    store: &[u32],
    tables: &mut [u32],
    user: u32,
    entry: u32,
    pointer: u32,
    list: &mut [u32],
) -> Ran {
    let at = match gate::pointer::<u32>(store, tables, user, entry, pointer, pointer == 0) {
        Err(refusal) => return refusal.into(),
        Ok(at) => at,
    };
    let cells = layout::opening_mut(tables, at);
    let value = cells[opening::POINTERS + pointer as usize];
    if value < cells[opening::BEGIN] && !list.is_empty() {
        return Refusal::Below.into();
    }
    let many = list.len().min(cells[opening::END].saturating_sub(value) as usize);
    take_stretches::<M>(store, cells, value, &mut list[..many]);
    if pointer == 0 {
        drop_first(cells, many as u32);
    } else {
        cells[opening::POINTERS + pointer as usize] = value + many as u32;
    }
    Ran { many, stop: (many < list.len()).then_some(Refusal::Beyond) }
}

/// Elements of the file from a position on.
fn take_stretches<M: Means>(store: &[u32], cells: &Opening, mut position: u32, mut list: &mut [u32]) {
    let species = cells[opening::SPECIES];
    let first = stretch(species, cells[opening::BEGIN]);
    while !list.is_empty() {
        let many = list.len().min(rest_of_stretch(species, position) as usize);
        let (here, rest) = std::mem::take(&mut list).split_at_mut(many);
        let number = cells[opening::SEGMENTS][(stretch(species, position) - first) as usize];
        M::take(segment(store, number), species, offset(species, position), here);
        position += many as u32;
        list = rest;
    }
}
