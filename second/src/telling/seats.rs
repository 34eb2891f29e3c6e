//! Where the bounds and the list of a file lie in the tables, be they a record's or an opening's.

use super::teller::Teller;
use crate::cells::fields::{self, opening as of_opening, record as of_record};
use crate::rules::sizes::{ENTRIES, PLACES};
use crate::text::line::BufferName;

#[derive(Clone, Copy, PartialEq, Eq, Debug)]
pub struct Seat {
    /// Its place among all records and, after them, all openings.
    pub number: u32,
    begin: usize,
    end: usize,
    list: usize,
}

/// A begin and an end.
pub type Bounds = (u32, u32);

impl Seat {
    pub fn of_record(place: usize) -> Seat {
        let start = fields::record_cells(place).start;
        Seat {
            number: place as u32,
            begin: start + of_record::BEGIN,
            end: start + of_record::END,
            list: start + of_record::LIST.start,
        }
    }

    pub fn of_opening(user: u32, entry: u32) -> Seat {
        let (user, entry) = (user as usize, entry as usize);
        let start = fields::opening_cells(user, entry).start;
        Seat {
            number: (PLACES + ENTRIES * user + entry) as u32,
            begin: start + of_opening::BEGIN,
            end: start + of_opening::END,
            list: start + of_opening::LIST.start,
        }
    }
}

impl Teller {
    pub fn bounds_at(&self, seat: Seat) -> Bounds {
        (self.cell(BufferName::Tables, seat.begin), self.cell(BufferName::Tables, seat.end))
    }

    pub fn put_bounds(&mut self, seat: Seat, (begin, end): Bounds) {
        self.poke(BufferName::Tables, seat.end, end);
        self.poke(BufferName::Tables, seat.begin, begin);
    }

    /// The segment of the first held stretch.
    pub fn first_segment_at(&self, seat: Seat) -> u32 {
        self.cell(BufferName::Tables, seat.list)
    }

    pub fn put_first_segment(&mut self, seat: Seat, segment: u32) {
        self.poke(BufferName::Tables, seat.list, segment);
    }
}
