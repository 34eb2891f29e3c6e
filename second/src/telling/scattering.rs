//! Scattered catalogues: free segments that lie below listed ones, by calls alone or by pokes.

use super::teller::Teller;
use crate::cells::fields::{record as of_record, record_cells};
use crate::model::store::Segment;
use crate::rules::sizes::SEGMENT_CELLS;
use crate::text::line::BufferName;

/// The species whose elements fill a cell each.
const WHOLE_CELLS: u32 = 5;

impl Teller {
    /// Whether some listed segment is numbered H or above, H being how many are listed: then one below H is free.
    pub fn is_scattered(&self) -> bool {
        self.catalogue().map_or(false, |catalogue| {
            let listed = catalogue.segments - catalogue.free.len();
            catalogue.free.iter().next().map_or(false, |lowest| usize::from(lowest.0) < listed)
        })
    }

    /// New files take their segments by turns and some of them are abandoned; then files let segments go.
    pub fn scatter_by_calls(&mut self) {
        self.free_some_segments();
        let opened = self.open_new_files();
        for _ in 0..self.random.between(1, 2) {
            for &(user, entry) in &opened {
                self.append_about_a_segment(user, entry);
            }
        }
        self.close_or_abandon(opened);
        for _ in 0..self.random.between(1, 3) {
            self.let_some_segments_go();
        }
    }

    fn open_new_files(&mut self) -> Vec<(u32, u32)> {
        let mut opened = Vec::new();
        for _ in 0..self.random.between(3, 6) {
            let (user, entry) = self.a_closed_entry();
            // Files of whole cells soon hold several segments.
            let species = match self.random.chance(60) {
                true => WHOLE_CELLS,
                false => self.a_species(),
            };
            if self.say(format!("new {} {} {}", user, entry, species)).starts_with("done") {
                opened.push((user, entry));
            }
        }
        opened
    }

    /// One or two elements, and often a run that leads just before or just over the border of a segment of whole cells.
    pub fn append_about_a_segment(&mut self, user: u32, entry: u32) {
        let few = self.random.between(1, 2);
        self.append_some(user, entry, few);
        if self.random.chance(60) {
            let about_a_segment = self.random.between(SEGMENT_CELLS as u32 - 4, SEGMENT_CELLS as u32 + 2);
            self.append_a_run(user, entry, about_a_segment);
        }
    }

    fn close_or_abandon(&mut self, opened: Vec<(u32, u32)>) {
        let salt = self.random.below(1000);
        for (number, (user, entry)) in opened.into_iter().enumerate() {
            self.say(format!("rename {} {} t{}x{}", user, entry, salt, number));
            let word = self.random.pick(&["close", "close", "public", "abandon"]);
            self.end_surely(word, user, entry);
        }
    }

    /// Ends an opening by this word, and by abandoning it where that is refused.
    pub fn end_surely(&mut self, word: &str, user: u32, entry: u32) {
        if !self.say(format!("{} {} {}", word, user, entry)).starts_with("done") {
            self.say(format!("abandon {} {}", user, entry));
        }
    }

    /// List places of records put to other free segments, which gives sound tables where the record is not open; and a
    /// few cells there, to tell the segments by.
    pub fn scatter_by_pokes(&mut self) {
        for _ in 0..self.random.between(1, 6) {
            let (place, record, segment) = match (self.a_record_with_segments(), self.a_free_segment()) {
                (Some((place, record)), Some(segment)) => (place, record, segment),
                _ => return,
            };
            let list = record_cells(place).start + of_record::LIST.start;
            let list_place = self.random.index(record.file.segments().len());
            self.poke(BufferName::Tables, list + list_place, u32::from(segment.0));
            let first_cell = usize::from(segment.0) * SEGMENT_CELLS;
            for offset in [self.random.index(SEGMENT_CELLS), SEGMENT_CELLS - 1] {
                let value = self.a_number();
                self.poke(BufferName::Store, first_cell + offset, value);
            }
        }
    }

    /// The highest one, or any.
    fn a_free_segment(&mut self) -> Option<Segment> {
        if self.random.chance(30) {
            return self.catalogue()?.free.iter().next_back().copied();
        }
        self.some_free_segments(1).first().copied()
    }
}
