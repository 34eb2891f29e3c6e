//! Tables that document 02's P6 is about: work openings that went far from their records, as a file does "that drops its head each night"; and tables that list
//! segments twice, which is found by counting.
use crate::calls::Lent;
use crate::random::Random;
use crate::starts::{end_after, lent};
use crate::tables::{
    each_species, early, empty, file, filled, open_new, reading, relist, short, shuffled, Content, ELEMENTS,
};
use crate::twin::layout::{opening, opening_mut};
use crate::twin::{MOST_HELD, SEGMENT_CELLS, WHOLE_SPECIES};

/// The stretches of form 1's positions were below this.
const STRETCHES_OF_FORM_1: u32 = 1 << 18;

/// How many stretches an opening's first one may be away from its record's.
const AWAY: [u32; 8] = [
    0,
    1,
    3,
    MOST_HELD,
    STRETCHES_OF_FORM_1,
    STRETCHES_OF_FORM_1 + 1,
    2 * STRETCHES_OF_FORM_1,
    64 * STRETCHES_OF_FORM_1,
];

/// How many stretches a file may be too long: a number of held segments that is cut to some bits does not tell.
const TOO_LONG: [u32; 3] = [1 << 8, 1 << 16, STRETCHES_OF_FORM_1];

/// The position that is so many stretches after another, where a file can hold 32 segments from it on.
fn later(species: u32, position: u32, stretches: u32) -> Option<u32> {
    let per_segment = u64::from(ELEMENTS[species as usize]);
    let later = u64::from(position) + u64::from(stretches) * per_segment;
    u32::try_from(later + u64::from(MOST_HELD) * per_segment).ok().map(|_| later as u32)
}

/// An entry works on the record at a place, and its file is another by now.
fn working(tables: &mut [u32], entry: usize, place: usize, content: Content) {
    reading(tables, entry, place);
    let cells = opening_mut(tables, entry);
    cells[opening::PERMIT] = 1;
    cells[opening::BEGIN] = content.begin;
    cells[opening::END] = content.end;
    cells[opening::WORK] = content.begin;
    cells[opening::SEGMENTS].fill(0);
    list(&mut cells[opening::SEGMENTS], content.segments());
}

fn list(cells: &mut [u32], segments: impl Iterator<Item = u32>) {
    cells.iter_mut().zip(segments).for_each(|(cell, segment)| *cell = segment);
}

/// A file of each species that its owner works on, 2^18 stretches away from its record.
pub fn each_species_away() -> Vec<u32> {
    let mut tables = each_species(early);
    for (place, per_segment) in ELEMENTS.into_iter().enumerate() {
        let (species, (begin, end)) = (place as u32, early(per_segment));
        let away = STRETCHES_OF_FORM_1 * per_segment;
        let first = 3 * (ELEMENTS.len() as u32 + species);
        working(&mut tables, 4 * place, place, Content { species, begin: begin + away, end: end + away, first });
    }
    tables
}

/// A record, the next record, and an opening that works on the first and is stretches away from it or not. Segments are listed twice or not, and files are too
/// long or not, so that the tables are sound or not.
pub fn apart(random: &mut Random) -> Lent {
    let species = random.below(ELEMENTS.len() as u32);
    let near = 1 + random.below(4 * ELEMENTS[species as usize]);
    let begins: Vec<u32> = AWAY.iter().filter_map(|&stretches| later(species, near, stretches)).collect();
    let far = begins[random.below(begins.len() as u32) as usize];
    let (filed, opened) = if random.one_in(4) { (far, near) } else { (near, far) };
    let mut content = |begin, first| {
        let most = if random.one_in(4) { MOST_HELD } else { 4 };
        let held = random.below(1 + most);
        Content { species, begin, end: end_after(species, begin, held, random.below(50)), first }
    };
    let files = [content(filed, 0), content(near, MOST_HELD), content(opened, 2 * MOST_HELD)];
    let mut tables = empty(3 * MOST_HELD + random.below(40));
    let (entry, place) = (random.below(32) as usize, random.below(63) as usize);
    file(&mut tables, place, short(place), entry as u32 / 4, files[0]);
    file(&mut tables, place + 1, short(place + 1), random.below(8), files[1]);
    working(&mut tables, entry, place, files[2]);
    if random.one_in(8) {
        lengthen(random, &mut tables, entry, files[2]);
    } else {
        list_again(random, &mut tables, entry, place, files);
    }
    lent(SEGMENT_CELLS * tables[0] as usize, tables)
}

/// The opening's end is farther, and its list is as it was.
fn lengthen(random: &mut Random, tables: &mut [u32], entry: usize, opened: Content) {
    let stretches = TOO_LONG[random.below(TOO_LONG.len() as u32) as usize];
    opening_mut(tables, entry)[opening::END] = later(opened.species, opened.end, stretches).unwrap_or(opened.end);
}

/// What the opening lists that others list, or what the next record does.
fn list_again(random: &mut Random, tables: &mut [u32], entry: usize, place: usize, files: [Content; 3]) {
    let [filed, next, opened] = files;
    let opened_list = &mut opening_mut(tables, entry)[opening::SEGMENTS][..opened.held() as usize];
    match random.below(8) {
        0..=1 => {}
        2..=3 => share(opened_list, opened, filed),
        4 => list(opened_list, filed.segments()),
        5 => list(opened_list, next.segments()),
        6 => list(&mut opened_list[..opened.held().min(1) as usize], [random.below(3 * MOST_HELD)].into_iter()),
        _ => relist(tables, place + 1, filed.segments().take(next.held() as usize)),
    }
}

/// The record's segments at the same stretch, as "a work opening of an old file shares the record's segments".
fn share(opened_list: &mut [u32], opened: Content, filed: Content) {
    let away = i64::from(opened.first_stretch()) - i64::from(filed.first_stretch());
    for (place, cell) in (away..).zip(opened_list) {
        if (0..i64::from(filed.held())).contains(&place) {
            *cell = filed.first + place as u32;
        }
    }
}

/// Tables in which 256 segments are listed twice, or that many several times: a count that is cut to a byte does not tell these from sound ones.
pub fn listed_again() -> Vec<Vec<u32>> {
    let sizes = [(32, 16, 256), (64, 16, 512), (64, 16, 256), (64, 32, 1024)];
    let mut all: Vec<_> =
        sizes.map(|(records, held, segments)| shuffled(records, held, |number| number % segments)).into();
    all.push(filled(16, short, 16));
    for entry in 0..32 {
        let first = 8 * entry as u32;
        open_new(&mut all[sizes.len()], entry, Content { species: WHOLE_SPECIES, begin: 1, end: 1 + 8 * 64, first });
    }
    all
}
