//! Save and load, of form 2, and the moves from form 1 to it and back.
use super::form::{New, Old, NOTHING_HELD};
use super::layout::{self, record, OPENINGS, TABLES};
use super::placing::SEGMENT_CELLS;
use super::soundness::sound;
use super::{Answer, Refusal};

pub fn save(store: &[u32], tables: &[u32], image: &mut [u32]) -> Answer {
    if !sound(tables, store.len()) {
        return Err(Refusal::Tables);
    }
    if image.len() != New::LENGTH {
        return Err(Refusal::Image);
    }
    New::write(tables, image);
    Ok(0)
}

/// "A fresh start and a load don't look at what the tables held, only at their length and the store's."
pub fn load(store: &[u32], tables: &mut [u32], image: &[u32]) -> Answer {
    if tables.len() != TABLES || store.len() < SEGMENT_CELLS {
        return Err(Refusal::Tables);
    }
    let mut held = NOTHING_HELD;
    New::read(image, store.len(), &mut held)?;
    let (records, openings) = tables.split_at_mut(OPENINGS);
    records.copy_from_slice(&held);
    openings.fill(0);
    Ok(0)
}

/// "Judge soundness with the store's segment count given as a number": the cells of such a store, whether there could be so many or not.
fn cells_of(segments: u32) -> usize {
    SEGMENT_CELLS * segments as usize
}

/// "A sound form 1 image always moves up."
pub fn up(old: &[u32], image: &mut [u32], segments: u32) -> Answer {
    if image.len() != New::LENGTH {
        return Err(Refusal::Image);
    }
    let mut held = NOTHING_HELD;
    Old::read(old, cells_of(segments), &mut held)?;
    New::write(&held, image);
    Ok(0)
}

/// "A sound form 2 image moves down exactly if every begin and end is at most 16,777,215, else refusal 24", and "22 comes before 24". No begin is above its
/// end, and an unused record's end is 0.
pub fn down(image: &[u32], old: &mut [u32], segments: u32) -> Answer {
    if old.len() != Old::LENGTH {
        return Err(Refusal::Image);
    }
    let mut held = NOTHING_HELD;
    New::read(image, cells_of(segments), &mut held)?;
    if layout::records(&held).any(|cells| cells[record::END] > Old::GREATEST_END) {
        return Err(Refusal::Far);
    }
    Old::write(&held, old);
    Ok(0)
}
