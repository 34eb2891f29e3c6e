//! A file: its elements in order, and the segments that hold them, by rising stretch.

use super::store::{Segment, Store};
use crate::rules::element::Element;
use crate::rules::species::Species;
use std::collections::VecDeque;

#[derive(Clone, PartialEq, Eq, Debug)]
pub struct File {
    species: Species,
    begin: u32,
    elements: VecDeque<Element>,
    segments: VecDeque<Segment>,
}

impl File {
    /// "It starts with b = e = 1."
    pub fn new(species: Species) -> File {
        File { species, begin: 1, elements: VecDeque::new(), segments: VecDeque::new() }
    }

    /// The file that these bounds and segments say, its elements read from the store. The segments must be as
    /// many as the bounds hold.
    pub fn read_from(store: &Store, species: Species, begin: u32, end: u32, segments: &[Segment]) -> File {
        let mut file = File::new(species);
        file.begin = begin;
        file.segments.extend(segments);
        let first = species.held_stretches(begin, end).start;
        for position in begin..end {
            let segment = segments[(species.stretch_of(position) - first) as usize];
            file.elements.push_back(store.element(segment, species, species.offset_of(position)));
        }
        file
    }

    /// After a cell of this segment was poked, the elements are what the cells say.
    pub fn read_segment_again(&mut self, store: &Store, segment: Segment) {
        if !self.segments.contains(&segment) {
            return;
        }
        for position in self.begin..self.end() {
            if self.segment_for(position) == Some(segment) {
                let element = store.element(segment, self.species, self.species.offset_of(position));
                self.elements[(position - self.begin) as usize] = element;
            }
        }
    }

    pub fn species(&self) -> Species {
        self.species
    }

    pub fn begin(&self) -> u32 {
        self.begin
    }

    pub fn end(&self) -> u32 {
        self.begin + self.elements.len() as u32
    }

    pub fn segments(&self) -> &VecDeque<Segment> {
        &self.segments
    }

    /// "The claim is the number of positions from b to the end of the last held stretch, 0 for an empty file."
    pub fn claim(&self) -> u32 {
        if self.elements.is_empty() {
            return 0;
        }
        let stretches = self.species.held_stretches(self.begin, self.end());
        // The end of the last stretch may lie one beyond the greatest number of a cell.
        let positions_up_to_its_end = u64::from(stretches.end) * u64::from(self.species.elements_in_a_segment());
        (positions_up_to_its_end - u64::from(self.begin - 1)) as u32
    }

    /// The element at a position of the file.
    pub fn element(&self, position: u32) -> Element {
        self.elements[(position - self.begin) as usize]
    }

    /// The segment held for the stretch of this position, which may lie outside the file.
    pub fn segment_for(&self, position: u32) -> Option<Segment> {
        let first = self.species.stretch_of(self.begin);
        let place = self.species.stretch_of(position).checked_sub(first)?;
        self.segments.get(place as usize).copied()
    }

    pub fn lists(&self, segment: Segment) -> bool {
        self.segments.contains(&segment)
    }

    /// Puts another segment where the one of this held position was.
    pub fn exchange_segment(&mut self, position: u32, segment: Segment) {
        let place = self.species.stretch_of(position) - self.species.stretch_of(self.begin);
        self.segments[place as usize] = segment;
    }

    /// Puts other segments into the list, stretch by stretch; the cells must already lie there.
    pub fn renumber_segments(&mut self, new_number: impl Fn(Segment) -> Segment) {
        self.segments.iter_mut().for_each(|segment| *segment = new_number(*segment));
    }

    /// Adds the segment for the stretch of the position that is appended next.
    pub fn add_segment(&mut self, segment: Segment) {
        self.segments.push_back(segment);
    }

    pub fn replace(&mut self, position: u32, element: Element) {
        self.elements[(position - self.begin) as usize] = element;
    }

    pub fn append(&mut self, element: Element) {
        self.elements.push_back(element);
    }

    /// The first element leaves a file that has one. Delivers the segment no longer held, if there is one.
    pub fn drop_first(&mut self) -> Option<Segment> {
        let stretch = self.species.stretch_of(self.begin);
        self.elements.pop_front();
        self.begin += 1;
        if self.elements.is_empty() || self.species.stretch_of(self.begin) != stretch {
            return self.segments.pop_front();
        }
        None
    }

    /// The last element leaves a file that has one. Delivers the segment no longer held, if there is one.
    pub fn drop_last(&mut self) -> Option<Segment> {
        let stretch = self.species.stretch_of(self.end() - 1);
        self.elements.pop_back();
        if self.elements.is_empty() || self.species.stretch_of(self.end() - 1) != stretch {
            return self.segments.pop_back();
        }
        None
    }
}
