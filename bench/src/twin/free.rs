//! "A segment is free if no catalogue record and no opening lists it".
use super::layout::{self, opening, record};
use super::lists::{count, mark, of_opening, of_record, Marks, NONE_MARKED};
use super::{gate, Answer};

/// The held segment numbers of each record and opening of sound tables.
fn lists(tables: &[u32]) -> impl Iterator<Item = &[u32]> {
    let records = layout::records(tables).filter(|cells| cells[record::USED] == 1).map(of_record);
    let openings = layout::openings(tables).filter(|cells| cells[opening::OPEN] == 1).map(of_opening);
    records.chain(openings)
}

/// A mark for each segment that is listed.
pub fn listed(tables: &[u32]) -> Marks {
    let mut listed = NONE_MARKED;
    lists(tables).for_each(|list| mark(&mut listed, list));
    listed
}

pub fn free_count(tables: &[u32]) -> u32 {
    tables[0] - count(&listed(tables))
}

/// "A taken segment is always the lowest-numbered free one." By marks: one pass over the lists.
pub fn lowest_free(tables: &[u32]) -> Option<u32> {
    let found = listed(tables)[..tables[0] as usize].iter().position(|&listed| listed == 0);
    found.map(|segment| segment as u32)
}

/// The same in the form that document 01 names for the proved code: "search over segments, inner scan of lists".
pub fn lowest_free_by_search(tables: &[u32]) -> Option<u32> {
    let held: Vec<&[u32]> = lists(tables).filter(|list| !list.is_empty()).collect();
    (0..tables[0]).find(|segment| !held.iter().any(|list| list.contains(segment)))
}

/// "the number of free segments (names a user, no entry: 20, 1)"
pub fn free(store: &[u32], tables: &[u32], user: u32) -> Answer {
    gate::user(store, tables, user)?;
    Ok(free_count(tables))
}
