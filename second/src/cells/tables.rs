//! The tables: a catalogue while their cells are sound, the bare cells while they are not.

use super::fields::{self, TABLES_LENGTH};
use super::judging::Outlines;
use super::outline::{judged_opening, judged_record, Unsound};
use super::writing::tables_cells;
use crate::model::catalogue::Catalogue;
use crate::model::store::{Segment, Store};
use crate::rules::refusal::Refusal;
use crate::rules::sizes::{MOST_SEGMENTS, PLACES};

/// The buffer is longer than the tables' one length.
const CELLS_BEYOND: usize = 64;

enum Truth {
    /// The cells are sound, or would be in a longer store.
    Said(Box<Catalogue>),
    Bare(Vec<u32>),
}

pub struct Tables {
    truth: Truth,
    /// The cells after the one length: no call ever touches them.
    beyond: Vec<u32>,
    pub lent: usize,
}

impl Tables {
    pub const CELLS: usize = TABLES_LENGTH + CELLS_BEYOND;

    pub fn new() -> Tables {
        Tables { truth: Truth::Bare(vec![0; TABLES_LENGTH]), beyond: vec![0; CELLS_BEYOND], lent: TABLES_LENGTH }
    }

    /// The part of refusal 20 at which every call looks, a fresh start and a load too: "tables of wrong length"
    /// or "store under 64 cells".
    pub fn check_lengths(&self, store: &Store) -> Result<(), Refusal> {
        if self.lent == TABLES_LENGTH && store.segments_that_fit() >= 1 {
            Ok(())
        } else {
            Err(Refusal::TablesOrStoreUnfit)
        }
    }

    /// All of refusal 20: "tables of wrong length or unsound, or store under 64 cells".
    pub fn usable(&self, store: &Store) -> Result<&Catalogue, Refusal> {
        self.check_lengths(store)?;
        match &self.truth {
            Truth::Said(catalogue) if catalogue.segments <= store.segments_that_fit() => Ok(catalogue),
            _ => Err(Refusal::TablesOrStoreUnfit),
        }
    }

    pub fn usable_mut(&mut self, store: &Store) -> Result<&mut Catalogue, Refusal> {
        self.check_lengths(store)?;
        match &mut self.truth {
            Truth::Said(catalogue) if catalogue.segments <= store.segments_that_fit() => Ok(catalogue),
            _ => Err(Refusal::TablesOrStoreUnfit),
        }
    }

    /// "A fresh start and a load don't look at what the tables held".
    pub fn say(&mut self, catalogue: Catalogue) {
        self.truth = Truth::Said(Box::new(catalogue));
    }

    /// All cells of the buffer, lent or not.
    pub fn cells(&self) -> Vec<u32> {
        let mut cells = match &self.truth {
            Truth::Said(catalogue) => tables_cells(catalogue),
            Truth::Bare(cells) => cells.clone(),
        };
        cells.extend(&self.beyond);
        cells
    }

    /// Writes one cell of the buffer and judges the cells anew.
    pub fn poke(&mut self, store: &Store, cell: usize, value: u32) {
        if cell >= TABLES_LENGTH {
            self.beyond[cell - TABLES_LENGTH] = value;
            return;
        }
        let mut cells = self.cells();
        cells.truncate(TABLES_LENGTH);
        cells[cell] = value;
        self.truth = match catalogue_of(&cells, store) {
            Ok(catalogue) => Truth::Said(Box::new(catalogue)),
            Err(Unsound) => Truth::Bare(cells),
        };
    }

    /// A cell of this segment was poked in the store.
    pub fn store_was_poked(&mut self, store: &Store, segment: Segment) {
        if let Truth::Said(catalogue) = &mut self.truth {
            catalogue.files_mut().for_each(|file| file.read_segment_again(store, segment));
        }
    }
}

impl Default for Tables {
    fn default() -> Self {
        Tables::new()
    }
}

/// What the tables' cells say, if they are sound; whether the number of segments "fits the store" is left to each
/// call, as the store may be lent shorter or longer at any time.
pub fn catalogue_of(cells: &[u32], store: &Store) -> Result<Catalogue, Unsound> {
    let segments = cells[fields::SEGMENTS_CELL] as usize;
    if !(1..=MOST_SEGMENTS).contains(&segments) {
        return Err(Unsound);
    }
    let mut records = Vec::with_capacity(PLACES);
    for place in 0..PLACES {
        records.push(judged_record(&cells[fields::record_cells(place)], segments)?);
    }
    let mut openings = Vec::new();
    for (user, entry) in fields::all_entries() {
        openings.push(judged_opening(user, &cells[fields::opening_cells(user, entry)], segments)?);
    }
    let outlines = Outlines { segments, records, openings };
    outlines.check()?;
    Ok(outlines.catalogue(store))
}
