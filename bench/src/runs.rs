//! Runs of as many elements as a sensor delivers, and of a thousand.
use crate::book::Book;
use crate::calls::Call::{self, FillRun, WriteRun};
use crate::calls::DELIVERED;
use crate::measure;
use crate::scenes::{open_between, Scene, HERE};
use crate::tables::ELEMENTS;
use crate::twin::{greatest, WHOLE_SPECIES};

/// Elements of the first stretch before the run, where it stays in that stretch, and of the file after it.
const BEFORE: u32 = 10;
const AFTER: u32 = 10;
/// As many as are left of a stretch of species 5 then.
const TO_THE_END: u32 = ELEMENTS[WHOLE_SPECIES as usize] - BEFORE;

/// A run on a file of a species, of so many elements.
type Run = fn(u32, u32) -> Call;

const RUNS: [(&str, Run); 5] = [
    ("append", |species, elements| write_run(species, 1, elements as usize)),
    ("replace through 2", |species, elements| write_run(species, 2, elements as usize)),
    ("write through 0", |species, elements| write_run(species, 0, elements as usize)),
    ("fill through 2", |_, elements| FillRun(HERE, 2, elements as usize)),
    ("fill through 0", |_, elements| FillRun(HERE, 0, elements as usize)),
];

/// Writes so many numbers of a species through a pointer.
pub fn write_run(species: u32, pointer: u32, elements: usize) -> Call {
    let number = |place: u32| place.wrapping_mul(0x9E37_79B9) & greatest(species);
    WriteRun(HERE, pointer, (0..elements as u32).map(number).collect())
}

/// A file whose first stretch has so many elements or positions before the run's first.
fn scene(records: usize, species: u32, run: &Call, before: u32, elements: u32) -> Scene {
    if let WriteRun(_, 1, _) = run {
        return open_between(records, species, 1, 1 + before);
    }
    open_between(records, species, 1 + before, 1 + before + elements + AFTER)
}

/// So many that half of the run, or of a stretch, is in the first stretch.
fn halfway(species: u32, elements: u32) -> u32 {
    let in_stretch = ELEMENTS[species as usize];
    in_stretch - elements.min(in_stretch) / 2
}

/// Whether the run comes down to a copy of cells: of species 5, but a write through 0, which only drops them.
fn are_cells(species: u32, run: &Call) -> bool {
    species == WHOLE_SPECIES && !matches!(run, WriteRun(_, 0, _))
}

fn rows(book: &mut Book, what: &str, run: &Call, species: u32, before: u32, elements: u32) {
    for records in [0, 20, 64] {
        let scene = scene(records, species, run, before, elements);
        let figures = measure::run(&scene, run, elements as usize, are_cells(species, run));
        book.row(&format!("{what} | {species} | {elements} | {records}"), figures);
    }
}

pub fn write(book: &mut Book) {
    book.run_heading("run | species | elements | records");
    for (what, run) in RUNS {
        for (species, elements) in [(5, DELIVERED), (5, TO_THE_END), (0, DELIVERED), (0, 1_000)] {
            rows(book, &format!("{what}, in one stretch"), &run(species, elements), species, BEFORE, elements);
        }
        for (species, elements) in [(5, DELIVERED), (5, 1_000), (0, DELIVERED), (0, 1_000)] {
            let before = halfway(species, elements);
            rows(book, &format!("{what}, across stretches"), &run(species, elements), species, before, elements);
        }
    }
}
