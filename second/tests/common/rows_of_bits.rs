//! The moves by rows of bits, straight from the two documents, and their verdicts by what a load says.

use super::answer;
use super::images::{lend, poke, Way};
use filing::text::answering::Desk;

/// "used 1, name 12 x 6, owner 3, private 1, species 3" come before the begin; "32 segment numbers of 10 bits" after the end.
const BEFORE_THE_BEGIN: usize = 80;
const LIST: usize = 320;

fn bits_of(cells: &[u32]) -> Vec<u32> {
    cells.iter().flat_map(|&cell| (0..32).rev().map(move |place| cell >> place & 1)).collect()
}

fn cells_of(bits: &[u32]) -> Vec<u32> {
    bits.chunks(32).map(|bits| bits.iter().fold(0, |cell, bit| cell << 1 | bit)).collect()
}

/// The cells of a form 1 image in form 2: eight zeros before each begin and each end, sixteen at a record's end.
fn widened(cells: &[u32]) -> Vec<u32> {
    let mut row = bits_of(&[cells[0] & 0x00FF_FFFF | 2 << 24]);
    for record in bits_of(&cells[1..]).chunks(448) {
        let (head, rest) = record.split_at(BEFORE_THE_BEGIN);
        let parts = [head, &[0; 8], &rest[..24], &[0; 8], &rest[24..48], &rest[48..], &[0; 16]];
        row.extend(parts.concat());
    }
    cells_of(&row)
}

/// The other way, where those bits are left out, whatever they are.
fn narrowed(cells: &[u32]) -> Vec<u32> {
    let mut row = bits_of(&[cells[0] & 0x00FF_FFFF | 1 << 24]);
    for record in bits_of(&cells[1..]).chunks(480) {
        let (head, rest) = record.split_at(BEFORE_THE_BEGIN);
        row.extend([head, &rest[8..32], &rest[40..64], &rest[64..64 + LIST]].concat());
    }
    cells_of(&row)
}

/// "every begin and end is at most 16,777,215": their first eight bits are zero.
fn is_wide(cells: &[u32]) -> bool {
    let begins =
        |record: &[u32]| [BEFORE_THE_BEGIN, BEFORE_THE_BEGIN + 32].map(|start| record[start..start + 8].to_vec());
    bits_of(&cells[1..]).chunks(480).any(|record| begins(record).concat().contains(&1))
}

/// One who loads images to judge them.
pub struct Judge {
    desk: Desk,
    loaded: Vec<u32>,
}

impl Judge {
    pub fn new() -> Judge {
        Judge { desk: Desk::new(), loaded: vec![0; 961] }
    }

    /// Whether a form 2 image is sound over a store of so many segments.
    fn is_sound(&mut self, cells: &[u32], segments_there: u32) -> bool {
        for (cell, &value) in cells.iter().enumerate() {
            if self.loaded[cell] != value {
                poke(&mut self.desk, 0, cell, value);
                self.loaded[cell] = value;
            }
        }
        lend(&mut self.desk, 0, cells.len());
        answer(&mut self.desk, &format!("lend store {}", 64 * segments_there.min(1024)));
        answer(&mut self.desk, "load 0") == "done 0"
    }

    /// The answer to a move between buffers of right lengths, and the cells where it is done.
    pub fn judged(&mut self, way: Way, cells: &[u32], segments_there: u32) -> Result<Vec<u32>, u32> {
        let up = way.from.number == 1;
        let new = if up { widened(cells) } else { cells.to_vec() };
        if cells[0] >> 24 != way.from.number || !self.is_sound(&new, segments_there) {
            return Err(22);
        }
        match (up, is_wide(cells)) {
            (true, _) => Ok(new),
            (false, false) => Ok(narrowed(cells)),
            (false, true) => Err(24),
        }
    }
}
