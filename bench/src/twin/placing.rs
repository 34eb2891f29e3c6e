//! Where an element lies: species, positions, stretches and cells.

/// Document 02, P6: "Raise the begin and end limit to 4,294,967,295." No cell holds a greater number, so no sum may go beyond it.
pub const GREATEST_END: u32 = u32::MAX;
pub const GREATEST_SPECIES: u32 = 6;
/// "species 5, where an element is a cell"
pub const WHOLE_SPECIES: u32 = 5;
/// "signed temperatures", and the plain species that is as wide.
pub const SIGNED_SPECIES: u32 = 6;
pub const AS_WIDE_AS_SIGNED: u32 = 4;
pub const MOST_HELD: u32 = 32;
pub const SEGMENT_CELLS: usize = 64;

/// "Species 0 to 5 have elements of 1, 2, 4, 8, 16 and 32 bits": the width is 2 to this power.
fn width_log(species: u32) -> u32 {
    if species == SIGNED_SPECIES {
        return AS_WIDE_AS_SIGNED;
    }
    species
}

fn width(species: u32) -> u32 {
    1 << width_log(species)
}

/// The greatest plain number of the width, which is all its bits.
pub fn greatest(species: u32) -> u32 {
    u32::MAX >> (32 - width(species))
}

/// "so E = 2048, 1024, 512, 256, 128 and 64 elements in a segment": E is 2 to this power.
fn elements_log(species: u32) -> u32 {
    11 - width_log(species)
}

/// How many elements a position's stretch has before it, o, and how many from it on.
pub fn offset(species: u32, position: u32) -> u32 {
    (position - 1) & ((1 << elements_log(species)) - 1)
}

pub fn rest_of_stretch(species: u32, position: u32) -> u32 {
    (1 << elements_log(species)) - offset(species, position)
}

/// "Position x lies in the file's stretch floor((x-1)/E)"
pub fn stretch(species: u32, position: u32) -> u32 {
    (position - 1) >> elements_log(species)
}

/// "A file holds one segment for each stretch with at least one of its positions, and no other; an empty file holds none."
pub fn held(species: u32, begin: u32, end: u32) -> u32 {
    if begin == end {
        return 0;
    }
    stretch(species, end - 1) - stretch(species, begin) + 1
}

/// "The claim is the number of positions from b to the end of the last held stretch, 0 for an empty file." That end may lie beyond the greatest number of a
/// cell, so the claim is told from the held stretches, which have 65,536 positions at most.
pub fn claim(species: u32, begin: u32, end: u32) -> u32 {
    if begin == end {
        return 0;
    }
    (held(species, begin, end) << elements_log(species)) - offset(species, begin)
}

/// The cells of a segment in the store.
pub type Segment = [u32; SEGMENT_CELLS];

pub fn segment(store: &[u32], number: u32) -> &Segment {
    let from = number as usize * SEGMENT_CELLS;
    store[from..from + SEGMENT_CELLS].try_into().unwrap()
}

pub fn segment_mut(store: &mut [u32], number: u32) -> &mut Segment {
    let from = number as usize * SEGMENT_CELLS;
    (&mut store[from..from + SEGMENT_CELLS]).try_into().unwrap()
}

/// Of species 5, the cell that is the element: no offset of a segment is past its cells, and so the compiler knows it.
fn whole_seat(offset: u32) -> usize {
    offset as usize % SEGMENT_CELLS
}

/// An element in its segment: the cell, how far the element stands above the cell's lowest bit, and the bits of its width.
struct Seat {
    cell: usize,
    above: u32,
    mask: u32,
}

/// "it is in cell floor(o·w/32) of that stretch's segment, its top bit (o·w mod 32) bits below the cell's top bit"
fn seat(species: u32, offset: u32) -> Seat {
    let bits = offset * width(species);
    Seat {
        // no offset of a segment is past its cells, and so the compiler knows it
        cell: bits as usize / 32 % SEGMENT_CELLS,
        above: 32 - width(species) - bits % 32,
        mask: greatest(species),
    }
}

pub fn element(cells: &Segment, species: u32, offset: u32) -> u32 {
    if species == WHOLE_SPECIES {
        return cells[whole_seat(offset)];
    }
    let seat = seat(species, offset);
    cells[seat.cell] >> seat.above & seat.mask
}

/// An element, which is no wider than the species.
pub fn put_element(cells: &mut Segment, species: u32, offset: u32, element: u32) {
    if species == WHOLE_SPECIES {
        cells[whole_seat(offset)] = element;
        return;
    }
    let seat = seat(species, offset);
    let cell = &mut cells[seat.cell];
    *cell = *cell & !(seat.mask << seat.above) | element << seat.above;
}
