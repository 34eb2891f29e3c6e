//! Images moved from one form to the other.

use dorrivand::{forms, Refusal};

/// "Cell 0: form 8 bits (1), number of segments 11 bits, 13 zero bits."
pub fn old_heading(segments: usize) -> u32 {
    1 << 24 | (segments as u32) << 13
}

/// What the cells hold into which an image is moved.
const BEFORE: u32 = 5;

/// Moves into so many cells. A refusal must leave them as they were.
pub fn moved(length: usize, call: impl FnOnce(&mut [u32]) -> Result<(), Refusal>) -> Result<Vec<u32>, Refusal> {
    let mut cells = vec![BEFORE; length];
    let answer = call(&mut cells);
    assert!(answer.is_ok() || cells.iter().all(|&cell| cell == BEFORE), "{answer:?}, and a cell was written to");
    answer.map(|()| cells)
}

pub fn up(old: &[u32], segments: u32) -> Result<Vec<u32>, Refusal> {
    moved(dorrivand::image_length(), |image| forms::up(old, image, segments))
}

pub fn down(image: &[u32], segments: u32) -> Result<Vec<u32>, Refusal> {
    moved(dorrivand::old_image_length(), |old| forms::down(image, old, segments))
}
