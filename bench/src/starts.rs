//! What random histories and runs begin on.
use crate::calls::{At, Lent};
use crate::chance::LONGEST_RUN;
use crate::random::Random;
use crate::tables::{empty, file, open_new, reading, relist, short, Content, CELLS, ELEMENTS, SEGMENTS};
use crate::twin::layout::{opening, opening_mut, record, records_mut, PLACES};
use crate::twin::{GREATEST_END, IMAGE, MOST_HELD, OLD_GREATEST_END, OLD_IMAGE, SEGMENT_CELLS, SIGNED_SPECIES};

/// So few that a file or two hold nearly all of them.
const FEW_SEGMENTS: u32 = 40;

pub fn lent(cells: usize, tables: Vec<u32>) -> Lent {
    Lent {
        store: (0..cells as u32).map(|cell| cell.wrapping_mul(0x9E37_79B9)).collect(),
        tables,
        image: vec![0; IMAGE],
        old: vec![0; OLD_IMAGE],
        list: (0..LONGEST_RUN).collect(),
        place: 0,
    }
}

/// Every user has files "a" to "d" of 32 segments each, and no segment is free; or files near their limits, and some are.
pub fn crowded(contents: impl Fn(u32) -> Content) -> Lent {
    let mut tables = empty(SEGMENTS);
    for place in 0..32 {
        let mut name = [63; 12];
        name[0] = 10 + place % 4;
        file(&mut tables, place as usize, name, place / 4, contents(place));
    }
    lent(CELLS, tables)
}

pub fn full_files(place: u32) -> Content {
    Content { species: 5, begin: 1, end: 1 + 32 * 64, first: 32 * place }
}

/// One element before 32 segments are full; one position before the positions are used up; one element; empty beyond the begin. Every second
/// user's files of the first two kinds are signed.
pub fn files_near_limits(place: u32) -> Content {
    let first = 32 * place;
    let signed_or = |plain| if place / 4 % 2 == 1 { SIGNED_SPECIES } else { plain };
    match place % 4 {
        0 => Content { species: signed_or(4), begin: 128, end: 128 * 32, first },
        1 => Content { species: signed_or(3), begin: GREATEST_END - 215, end: GREATEST_END - 1, first },
        2 => Content { species: place % ELEMENTS.len() as u32, begin: 1, end: 2, first },
        _ => Content { species: 1, begin: 2049, end: 2049, first },
    }
}

/// Nothing is open. Files of any kind, some or till one does not fit, hold segments from all over the store.
pub fn scattered_files(random: &mut Random) -> Lent {
    scattered(random, any_content)
}

/// The same of files that mostly have room in form 1, each private or public.
pub fn files_about_form_1(random: &mut Random) -> Lent {
    let mut lent = scattered(random, content_about_form_1);
    for cells in records_mut(&mut lent.tables).filter(|cells| cells[record::USED] == 1) {
        cells[record::PRIVATE] = random.below(2);
    }
    lent
}

fn scattered(random: &mut Random, any: fn(&mut Random) -> Content) -> Lent {
    let most = if random.one_in(3) { FEW_SEGMENTS } else { SEGMENTS };
    let segments = 1 + random.below(most);
    let (mut left, mut tables) = (random.shuffled(segments), empty(segments));
    for place in 0..random.below(PLACES as u32 + 1) as usize {
        let content = any(random);
        let Some(free) = left.len().checked_sub(content.held() as usize) else { break };
        file(&mut tables, place, short(place), place as u32 % 8, content);
        relist(&mut tables, place, left.drain(free..));
    }
    let beyond = random.below(SEGMENT_CELLS as u32);
    lent(SEGMENT_CELLS * segments as usize + beyond as usize, tables)
}

/// An entry reads a record of its user's or works on it, or has a new file without elements.
pub fn open_one(random: &mut Random, tables: &mut [u32]) {
    let entry = random.below(32) as usize;
    let place = entry / 4 + 8 * random.below(8) as usize;
    if record(tables, place)[record::USED] == 0 {
        open_new(tables, entry, Content { species: 0, begin: 1, end: 1, first: 0 });
        return;
    }
    reading(tables, entry, place);
    opening_mut(tables, entry)[opening::PERMIT] = random.below(2);
}

/// An entry has a file open that begins anywhere: a new one, or one that it works on or reads.
pub fn one_file(random: &mut Random) -> (Lent, At) {
    let entry = random.below(32);
    let (content, neighbour) = (any_content(random), random.below(20));
    let own = if content.begin < content.end { random.below(content.held() + 1) } else { 0 };
    let free = if random.one_in(2) { random.below(4) } else { random.below(40) };
    let used = content.held() + own + neighbour;
    let first = if random.one_in(2) { free } else { 0 };
    let mut tables = empty((used + free).max(1));
    let content = Content { first, ..content };
    match random.below(8) {
        0..=3 => open_new(&mut tables, entry as usize, content),
        4 => read_record(&mut tables, entry, content),
        _ => work_record(&mut tables, entry, content, own),
    }
    let others = Content { species: 5, begin: 1, end: 1 + 64 * neighbour, first: first + content.held() + own };
    open_new(&mut tables, (entry as usize + 1) % 32, others);
    put_pointers(random, &mut opening_mut(&mut tables, entry as usize)[opening::WORK_AND_OWN], content);
    (lent(64 * tables[0] as usize + random.below(64) as usize, tables), (entry / 4, entry % 4))
}

/// A file of no, a few or nearly all 32 segments, often near the end of its last one, sometimes near the end of all positions or of those of form 1.
fn any_content(random: &mut Random) -> Content {
    let species = random.below(ELEMENTS.len() as u32);
    let per_segment = ELEMENTS[species as usize];
    let begin = match random.below(8) {
        0..=1 => 1,
        2..=3 => GREATEST_END - random.below(2 * per_segment),
        4 => GREATEST_END - random.below(MOST_HELD * per_segment),
        5 => OLD_GREATEST_END - random.below(2 * per_segment),
        _ => 1 + random.below(GREATEST_END),
    };
    content_from(random, species, begin)
}

/// Begin and end are at most the greatest of form 1, and often just that; those of few files go beyond, as one that does keeps a whole image from moving down.
fn content_about_form_1(random: &mut Random) -> Content {
    let species = random.below(ELEMENTS.len() as u32);
    let greatest = OLD_GREATEST_END + if random.one_in(60) { 1 + random.below(2) } else { 0 };
    let begin = match random.below(4) {
        0 => 1,
        1 => greatest,
        2 => greatest - random.below(2 * ELEMENTS[species as usize]),
        _ => 1 + random.below(greatest),
    };
    let content = content_from(random, species, begin);
    Content { end: content.end.min(greatest), ..content }
}

fn content_from(random: &mut Random, species: u32, begin: u32) -> Content {
    let per_segment = ELEMENTS[species as usize];
    let held = match random.below(4) {
        0 => 0,
        1 => 31 + random.below(2),
        _ => 1 + random.below(5),
    };
    let missing = if random.one_in(2) { random.below(50) } else { random.below(per_segment) };
    Content { species, begin, end: end_after(species, begin, held, missing), first: 0 }
}

/// The end of a file that holds so many segments, but for so many elements of the last; not beyond the positions.
pub fn end_after(species: u32, begin: u32, held: u32, missing: u32) -> u32 {
    let per_segment = ELEMENTS[species as usize];
    let full = u64::from((begin - 1) / per_segment + held) * u64::from(per_segment) + 1;
    let end = full.saturating_sub(missing.into()).clamp(begin.into(), GREATEST_END.into());
    end as u32
}

fn read_record(tables: &mut [u32], entry: u32, content: Content) {
    file(tables, 0, short(0), entry / 4, content);
    reading(tables, entry as usize, 0);
}

/// The opening has so many first segments of its own, which follow the record's.
fn work_record(tables: &mut [u32], entry: u32, content: Content, own: u32) {
    read_record(tables, entry, content);
    let cells = opening_mut(tables, entry as usize);
    cells[opening::PERMIT] = 1;
    let segments = content.first + content.held()..;
    for (cell, segment) in cells[opening::SEGMENTS].iter_mut().zip(segments).take(own as usize) {
        *cell = segment;
    }
}

/// The work pointer and own ones, or 0 for one that is not there: in the file, just before it or after it.
fn put_pointers(random: &mut Random, pointers: &mut [u32], content: Content) {
    for (place, pointer) in pointers.iter_mut().enumerate() {
        let value = match random.below(6) {
            0 => content.begin.saturating_sub(1 + random.below(3)),
            1 => content.end.saturating_add(random.below(3)),
            _ => content.begin + random.below(content.end - content.begin + 1),
        };
        *pointer = if place > 0 && random.one_in(3) { 0 } else { value.max(1) };
    }
}
