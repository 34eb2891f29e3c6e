//! Two ways to make a run.
use super::free::{listed, lowest_free};
use super::lists::Marks;
use super::packing::{put_elements, take_elements};
use super::placing::{element, put_element, Segment};

/// What a run does again and again.
pub trait Means: Default {
    /// Elements of one segment from an offset on.
    fn put(cells: &mut Segment, species: u32, offset: u32, numbers: &[u32]);
    fn take(cells: &Segment, species: u32, offset: u32, numbers: &mut [u32]);
    /// "A taken segment is always the lowest-numbered free one." The caller takes it.
    fn lowest_free(&mut self, tables: &[u32]) -> Option<u32>;
}

/// As fast as can be: whole cells, and the listed segments marked once in a run.
#[derive(Default)]
pub struct Fastest {
    /// And how many segments from the first on are known to be listed.
    marks: Option<(Marks, usize)>,
}

impl Means for Fastest {
    fn put(cells: &mut Segment, species: u32, offset: u32, numbers: &[u32]) {
        put_elements(cells, species, offset, numbers);
    }

    fn take(cells: &Segment, species: u32, offset: u32, numbers: &mut [u32]) {
        take_elements(cells, species, offset, numbers);
    }

    fn lowest_free(&mut self, tables: &[u32]) -> Option<u32> {
        let (listed, from) = self.marks.get_or_insert_with(|| (listed(tables), 0));
        let found = *from + listed[*from..tables[0] as usize].iter().position(|&listed| listed == 0)?;
        *from = found + 1;
        Some(found as u32)
    }
}

/// As a single call does it, again and again: one element after another, each taken segment found anew.
#[derive(Default)]
pub struct Singly;

impl Means for Singly {
    fn put(cells: &mut Segment, species: u32, offset: u32, numbers: &[u32]) {
        for (offset, &number) in (offset..).zip(numbers) {
            put_element(cells, species, offset, number);
        }
    }

    fn take(cells: &Segment, species: u32, offset: u32, numbers: &mut [u32]) {
        for (offset, number) in (offset..).zip(numbers) {
            *number = element(cells, species, offset);
        }
    }

    fn lowest_free(&mut self, tables: &[u32]) -> Option<u32> {
        lowest_free(tables)
    }
}
