//! "Tidying": the operator's call that brings the listed segments together at the low end of the store.

use crate::model::catalogue::Catalogue;
use crate::model::store::{Segment, Store};
use crate::rules::element::Element;
use crate::rules::refusal::{Answer, Refusal};
use crate::rules::sizes::SEGMENT_CELLS;
use std::collections::{BTreeMap, BTreeSet};

/// "With nothing open (else refusal 14), move segments so that the H listed ones are numbered 0 to H-1." Refusal 20 was
/// looked for before.
pub fn tidy(catalogue: &mut Catalogue, store: &mut Store) -> Answer {
    if catalogue.openings().next().is_some() {
        return Err(Refusal::NotNow);
    }
    let moves = moves(catalogue);
    for (&from, &to) in &moves {
        // "Segments left behind keep their cells", so they are copied and not exchanged.
        store.copy_segment(from, to);
        catalogue.free.remove(&to);
        catalogue.free.insert(from);
    }
    for file in catalogue.files_mut() {
        file.renumber_segments(|segment| moves.get(&segment).copied().unwrap_or(segment));
    }
    // "The answer is the count of cells copied: 64 for each listed segment numbered H or above".
    Ok((SEGMENT_CELLS * moves.len()) as Element)
}

/// "Listed segments numbered H or above, in rising order, go to the free ones below H, in rising order; no other moves."
/// Of the numbers below H as many are free as listed segments lie at H or above, so none is left without its new place.
fn moves(catalogue: &Catalogue) -> BTreeMap<Segment, Segment> {
    let listed = listed_segments(catalogue);
    let h = Segment(listed.len() as u16);
    let out_of_place = listed.range(h..).copied();
    let free_below = catalogue.free.range(..h).copied();
    out_of_place.zip(free_below).collect()
}

/// With nothing open the records alone list segments.
fn listed_segments(catalogue: &Catalogue) -> BTreeSet<Segment> {
    catalogue.records.iter().flatten().flat_map(|record| record.file.segments()).copied().collect()
}

#[cfg(test)]
mod tests {
    use super::*;
    use crate::model::file::File;
    use crate::model::opening::Opening;
    use crate::model::record::Record;
    use crate::rules::name::Name;
    use crate::rules::species::Species;

    /// Elements of 32 bits: each fills a cell.
    const WHOLE_CELLS: u32 = 5;

    fn whole_cells() -> Species {
        Species::from_number(WHOLE_CELLS).expect("0 to 6")
    }

    /// So many segments, and one file for each of these lists, which fills its segments.
    fn catalogue_with(segments: usize, store: &Store, lists: &[&[u16]]) -> Catalogue {
        let mut catalogue = Catalogue::empty(segments);
        for (place, list) in lists.iter().enumerate() {
            let list: Vec<Segment> = list.iter().map(|&number| Segment(number)).collect();
            list.iter().for_each(|segment| assert!(catalogue.free.remove(segment)));
            let end = 1 + (list.len() * SEGMENT_CELLS) as u32;
            let file = File::read_from(store, whole_cells(), 1, end, &list);
            let name = Name::from_bytes(format!("f{}", place).as_bytes());
            catalogue.records[place] = Some(Record { name, owner: 0, private: true, file });
        }
        catalogue
    }

    fn moves_of(segments: usize, lists: &[&[u16]]) -> Vec<(u16, u16)> {
        let catalogue = catalogue_with(segments, &Store::new(), lists);
        moves(&catalogue).into_iter().map(|(from, to)| (from.0, to.0)).collect()
    }

    #[test]
    fn rising_numbers_go_to_rising_numbers() {
        assert_eq!(moves_of(10, &[&[9, 1], &[7, 4]]), [(4, 0), (7, 2), (9, 3)]);
        assert_eq!(moves_of(10, &[&[7], &[9], &[8]]), [(7, 0), (8, 1), (9, 2)]);
        assert_eq!(moves_of(1024, &[&[1023, 0, 5]]), [(5, 1), (1023, 2)]);
    }

    #[test]
    fn what_lies_below_h_stays() {
        assert_eq!(moves_of(10, &[]), []);
        assert_eq!(moves_of(10, &[&[], &[0]]), []);
        assert_eq!(moves_of(10, &[&[2, 0], &[1]]), []);
        assert_eq!(moves_of(3, &[&[2, 0], &[1]]), []);
        assert_eq!(moves_of(10, &[&[2, 0], &[3]]), [(3, 1)]);
    }

    #[test]
    fn lists_and_free_segments_afterwards() {
        let mut store = Store::new();
        let mut catalogue = catalogue_with(6, &store, &[&[5, 1], &[3]]);
        assert_eq!(tidy(&mut catalogue, &mut store), Ok(2 * SEGMENT_CELLS as Element));
        assert_eq!(catalogue, catalogue_with(6, &store, &[&[2, 1], &[0]]));
        assert_eq!(tidy(&mut catalogue, &mut store), Ok(0));
    }

    #[test]
    fn an_opening_of_any_entry_hinders() {
        for (user, entry) in [(0, 0), (3, 1), (7, 3)] {
            let mut store = Store::new();
            let mut catalogue = catalogue_with(6, &store, &[&[5, 1], &[3]]);
            catalogue.entries[user][entry] = Some(Opening::of_new(whole_cells()));
            let before = catalogue.clone();
            assert_eq!(tidy(&mut catalogue, &mut store), Err(Refusal::NotNow));
            assert_eq!(catalogue, before);
        }
    }
}
