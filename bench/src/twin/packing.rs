//! Elements of one segment put and taken a whole cell at a time: by runs, so of species 0 to 5.
use super::placing::Segment;

/// Elements from an offset on, which are all of the segment.
pub fn put_elements(cells: &mut Segment, species: u32, offset: u32, numbers: &[u32]) {
    let offset = offset as usize;
    match species {
        0 => put::<1>(cells, offset, numbers),
        1 => put::<2>(cells, offset, numbers),
        2 => put::<4>(cells, offset, numbers),
        3 => put::<8>(cells, offset, numbers),
        4 => put::<16>(cells, offset, numbers),
        _ => cells[offset..offset + numbers.len()].copy_from_slice(numbers),
    }
}

pub fn take_elements(cells: &Segment, species: u32, offset: u32, numbers: &mut [u32]) {
    let offset = offset as usize;
    match species {
        0 => take::<1>(cells, offset, numbers),
        1 => take::<2>(cells, offset, numbers),
        2 => take::<4>(cells, offset, numbers),
        3 => take::<8>(cells, offset, numbers),
        4 => take::<16>(cells, offset, numbers),
        _ => numbers.copy_from_slice(&cells[offset..offset + numbers.len()]),
    }
}

/// How many elements of a width below 32 are in a cell.
const fn in_cell(width: u32) -> usize {
    (32 / width) as usize
}

/// How many of so many elements are in the offset's cell, where that has others before them.
fn in_first_cell(width: u32, offset: usize, many: usize) -> usize {
    match offset % in_cell(width) {
        0 => 0,
        before => many.min(in_cell(width) - before),
    }
}

/// Elements, none wider than told, beside each other, the last one lowest.
fn packed<const WIDTH: u32>(numbers: &[u32]) -> u32 {
    numbers.iter().fold(0, |bits, &number| bits << WIDTH | number)
}

/// Some elements of a cell, at least one and not all, with so many before them.
fn put_part<const WIDTH: u32>(cell: &mut u32, before: usize, numbers: &[u32]) {
    let bits = WIDTH * numbers.len() as u32;
    let above = 32 - WIDTH * before as u32 - bits;
    *cell = *cell & !(((1 << bits) - 1) << above) | packed::<WIDTH>(numbers) << above;
}

fn take_part<const WIDTH: u32>(cell: u32, before: usize, numbers: &mut [u32]) {
    for (place, number) in (before as u32..).zip(numbers) {
        *number = cell >> (32 - WIDTH - WIDTH * place) & ((1 << WIDTH) - 1);
    }
}

fn put<const WIDTH: u32>(cells: &mut Segment, offset: usize, numbers: &[u32]) {
    let (first, numbers) = numbers.split_at(in_first_cell(WIDTH, offset, numbers.len()));
    if !first.is_empty() {
        put_part::<WIDTH>(&mut cells[offset / in_cell(WIDTH)], offset % in_cell(WIDTH), first);
    }
    let mut cells = cells[(offset + first.len()) / in_cell(WIDTH)..].iter_mut();
    let whole = numbers.chunks_exact(in_cell(WIDTH));
    let last = whole.remainder();
    for (numbers, cell) in whole.zip(&mut cells) {
        *cell = packed::<WIDTH>(numbers);
    }
    if !last.is_empty() {
        put_part::<WIDTH>(cells.next().unwrap(), 0, last);
    }
}

fn take<const WIDTH: u32>(cells: &Segment, offset: usize, numbers: &mut [u32]) {
    let (first, numbers) = numbers.split_at_mut(in_first_cell(WIDTH, offset, numbers.len()));
    if !first.is_empty() {
        take_part::<WIDTH>(cells[offset / in_cell(WIDTH)], offset % in_cell(WIDTH), first);
    }
    let mut cells = cells[(offset + first.len()) / in_cell(WIDTH)..].iter();
    let mut whole = numbers.chunks_exact_mut(in_cell(WIDTH));
    for (numbers, cell) in (&mut whole).zip(&mut cells) {
        take_part::<WIDTH>(*cell, 0, numbers);
    }
    let last = whole.into_remainder();
    if !last.is_empty() {
        take_part::<WIDTH>(*cells.next().unwrap(), 0, last);
    }
}
