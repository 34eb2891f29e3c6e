//! Generated histories tidy scattered catalogues, and each tidying changes those cells that document 02 says, found here
//! from the cells alone.

use filing::cells::fields::{all_entries, opening_cells, record as of_record, record_cells};
use filing::rules::sizes::{MOST_SEGMENTS, PLACES, SEGMENT_CELLS};
use filing::rules::species::Species;
use filing::telling::{history, mode::Mode};
use filing::text::answering::Desk;
use filing::text::line::{BufferName, Line};
use std::ops::Range;

/// The cells of the store and of the tables.
#[derive(Clone, PartialEq, Eq)]
struct Cells {
    store: Vec<u32>,
    tables: Vec<u32>,
}

impl Cells {
    fn of(desk: &Desk) -> Cells {
        let all = |buffer| desk.cells(buffer).into_owned();
        Cells { store: all(BufferName::Store), tables: all(BufferName::Tables) }
    }

    fn anything_is_open(&self) -> bool {
        all_entries().any(|(user, entry)| self.tables[opening_cells(user, entry).start] != 0)
    }

    /// The tables' cells that hold segment numbers of records.
    fn listing_cells(&self) -> Vec<usize> {
        (0..PLACES).flat_map(|place| self.listing_cells_of(place)).collect()
    }

    fn listing_cells_of(&self, place: usize) -> Range<usize> {
        let start = record_cells(place).start;
        let field = |field: usize| self.tables[start + field];
        let list = start + of_record::LIST.start;
        if field(of_record::USED) == 0 {
            return list..list;
        }
        let species = Species::from_number(field(of_record::SPECIES)).expect("sound tables");
        list..list + species.held_stretches(field(of_record::BEGIN), field(of_record::END)).len()
    }

    /// "Listed segments numbered H or above, in rising order, go to the free ones below H, in rising order": one after
    /// the other, each to the lowest number that is not listed. Delivers how many there were.
    fn tidy(&mut self) -> usize {
        let listing_cells = self.listing_cells();
        let h = listing_cells.len();
        let mut lister = [None; MOST_SEGMENTS];
        for cell in listing_cells {
            let before = lister[self.tables[cell] as usize].replace(cell);
            assert_eq!(before, None, "listed twice");
        }
        let mut moved = 0;
        for from in h..MOST_SEGMENTS {
            if let Some(cell) = lister[from] {
                let to = lister.iter().position(Option::is_none).expect("one below H");
                lister[to] = Some(cell);
                self.tables[cell] = to as u32;
                let from = from * SEGMENT_CELLS;
                self.store.copy_within(from..from + SEGMENT_CELLS, to * SEGMENT_CELLS);
                moved += 1;
            }
        }
        assert!(lister[..h].iter().all(Option::is_some));
        moved
    }
}

/// How often tidying was answered in each way.
#[derive(Default, Debug)]
struct Counts {
    several_moved: usize,
    one_moved: usize,
    none_moved: usize,
    not_now: usize,
    unfit: usize,
}

impl Counts {
    /// The answer that is wanted, and the change of the cells that goes with it.
    fn tidy(&mut self, usable: bool, cells: &mut Cells) -> String {
        if !usable {
            self.unfit += 1;
            return "refused 20".to_string();
        }
        if cells.anything_is_open() {
            self.not_now += 1;
            return "refused 14".to_string();
        }
        let moved = cells.tidy();
        match moved {
            0 => self.none_moved += 1,
            1 => self.one_moved += 1,
            _ => self.several_moved += 1,
        }
        format!("done {}", moved * SEGMENT_CELLS)
    }
}

fn count_tidyings(seed: u64, mode: Mode, counts: &mut Counts) {
    let mut desk = Desk::new();
    for text in history(seed, 20_000, mode) {
        if Line::read(&text) != Ok(Line::Tidy) {
            desk.answer(&text);
            continue;
        }
        let mut wanted = Cells::of(&desk);
        let usable = desk.tables.usable(&desk.store).is_ok();
        let wanted_answer = counts.tidy(usable, &mut wanted);
        assert_eq!(desk.answer(&text), Some(wanted_answer), "{:?}, seed {}", mode, seed);
        assert!(Cells::of(&desk) == wanted, "{:?}, seed {}: other cells", mode, seed);
    }
}

/// Dozens that move something, many of them more than one segment, and each other answer.
#[test]
fn every_answer_in_mixed_and_calm_histories() {
    for mode in [Mode::Mixed, Mode::Calm] {
        for seed in 1..=6 {
            let mut counts = Counts::default();
            count_tidyings(seed, mode, &mut counts);
            assert!(counts.several_moved >= 10, "{:?}, seed {}: {:?}", mode, seed, counts);
            assert!(counts.several_moved + counts.one_moved >= 24, "{:?}, seed {}: {:?}", mode, seed, counts);
            assert!(counts.none_moved >= 5 && counts.not_now >= 5, "{:?}, seed {}: {:?}", mode, seed, counts);
            // A calm history has no wrong lengths and pokes nothing.
            assert!(counts.unfit >= 5 || mode == Mode::Calm, "{:?}, seed {}: {:?}", mode, seed, counts);
        }
    }
}

#[test]
fn every_answer_in_other_histories() {
    for mode in [Mode::Small, Mode::Edge, Mode::Damage] {
        let mut counts = Counts::default();
        (1..=2).for_each(|seed| count_tidyings(seed, mode, &mut counts));
        assert!(counts.several_moved >= 5 && counts.one_moved >= 5, "{:?}: {:?}", mode, counts);
        assert!(counts.none_moved >= 5 && counts.not_now >= 5 && counts.unfit >= 5, "{:?}: {:?}", mode, counts);
    }
}
