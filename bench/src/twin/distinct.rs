//! "segments in all lists are distinct, but for a record and its openings at one stretch": by counting. Every list marks its segments without a test. All are
//! distinct exactly if as many are marked then as the lists have numbers, but for those of openings that are their record's at the same stretch.
use super::layout::{self, opening, record, Opening, Record};
use super::lists::{count, mark, of_opening, of_record, NONE_MARKED};
use super::placing::stretch;

/// Of tables that are sound but for this.
pub fn distinct(tables: &[u32]) -> bool {
    let mut marks = NONE_MARKED;
    let mut numbers = 0;
    for cells in layout::records(tables).filter(|cells| cells[record::USED] == 1) {
        let list = of_record(cells);
        mark(&mut marks, list);
        numbers += list.len();
    }
    for cells in layout::openings(tables).filter(|cells| cells[opening::OPEN] == 1 && !reads(cells)) {
        let list = of_opening(cells);
        mark(&mut marks, list);
        numbers += list.len() - in_common(tables, cells);
    }
    count(&marks) as usize == numbers
}

/// Then its list is its record's: "the opening has that record's name, species, begin, end and segments".
fn reads(cells: &Opening) -> bool {
    cells[opening::PERMIT] == 0
}

/// How many segments an opening with work permit has at the same stretch as its record.
fn in_common(tables: &[u32], cells: &Opening) -> usize {
    if cells[opening::PLACE] == 0 {
        return 0;
    }
    let filed = layout::record(tables, cells[opening::PLACE] as usize - 1);
    let (first, filed_first) = (first_stretch(cells), first_filed_stretch(filed));
    let list = after(of_opening(cells), filed_first.saturating_sub(first));
    let filed_list = after(of_record(filed), first.saturating_sub(filed_first));
    list.iter().zip(filed_list).filter(|(segment, filed)| segment == filed).count()
}

fn first_stretch(cells: &Opening) -> u32 {
    stretch(cells[opening::SPECIES], cells[opening::BEGIN])
}

fn first_filed_stretch(cells: &Record) -> u32 {
    stretch(cells[record::SPECIES], cells[record::BEGIN])
}

/// What a list has after so many stretches.
fn after(list: &[u32], stretches: u32) -> &[u32] {
    list.get(stretches as usize..).unwrap_or_default()
}
