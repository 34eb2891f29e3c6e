//! Document 02, P13: tidying. By marks: those that are to move all lie at H or above, and where they go all lies below it.
use super::free::listed;
use super::layout::{self, record};
use super::lists::count;
use super::placing::{held, segment, segment_mut, SEGMENT_CELLS};
use super::soundness::MOST_SEGMENTS;
use super::{gate, Answer};

/// The new number of each segment.
type Numbers = [u32; MOST_SEGMENTS as usize];

/// Its own, while it has not moved.
const UNMOVED: Numbers = {
    let mut numbers = [0; MOST_SEGMENTS as usize];
    let mut number = 0;
    while number < numbers.len() {
        numbers[number] = number as u32;
        number += 1;
    }
    numbers
};

/// "The answer is the count of cells copied: 64 for each listed segment numbered H or above"
pub fn tidy(store: &mut [u32], tables: &mut [u32]) -> Answer {
    gate::nothing_open(store, tables)?;
    let marks = listed(tables);
    let kept = count(&marks) as usize;
    let (low, high) = marks[..tables[0] as usize].split_at(kept);
    if !high.contains(&1) {
        return Ok(0);
    }
    let mut numbers = UNMOVED;
    let mut many = 0;
    let (below, above) = store.split_at_mut(SEGMENT_CELLS * kept);
    for (source, target) in places(high, 1).zip(places(low, 0)) {
        *segment_mut(below, target) = *segment(above, source);
        numbers[kept + source as usize] = target;
        many += SEGMENT_CELLS;
    }
    renumber(tables, &numbers);
    Ok(many as u32)
}

/// The places of a mark, "in rising order".
fn places(marks: &[u8], wanted: u8) -> impl Iterator<Item = u32> + '_ {
    (0..).zip(marks).filter(move |(_, &mark)| mark == wanted).map(|(place, _)| place)
}

/// With nothing open the records alone list segments.
fn renumber(tables: &mut [u32], numbers: &Numbers) {
    for cells in layout::records_mut(tables).filter(|cells| cells[record::USED] == 1) {
        let held = held(cells[record::SPECIES], cells[record::BEGIN], cells[record::END]);
        for number in &mut cells[record::SEGMENTS][..held as usize] {
            *number = numbers[*number as usize];
        }
    }
}
