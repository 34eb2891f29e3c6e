//! "Species 0 to 5 have elements of 1, 2, 4, 8, 16 and 32 bits", and document 02 adds "species 6: signed temperatures from
//! -32,768 to 32,767 in 16 bits"; and where a position lies among stretches.

use super::element::{Element, Kind};
use super::sizes::SEGMENT_CELLS;
use std::ops::Range;

/// The bits of one element, by species.
const WIDTHS: [u32; SPECIES] = [1, 2, 4, 8, 16, 32, 16];

/// How many species there are, the signed one being the last.
pub const SPECIES: usize = 7;
const SIGNED: u8 = 6;

#[derive(Clone, Copy, PartialEq, Eq, Debug)]
pub struct Species(u8);

impl Species {
    pub fn from_number(number: u32) -> Option<Species> {
        match usize::try_from(number) {
            Ok(known) if known < SPECIES => Some(Species(known as u8)),
            _ => None,
        }
    }

    pub fn number(self) -> u32 {
        u32::from(self.0)
    }

    pub fn kind(self) -> Kind {
        match self.0 {
            SIGNED => Kind::Signed,
            _ => Kind::Plain,
        }
    }

    /// The bits of one element.
    pub fn width(self) -> u32 {
        WIDTHS[usize::from(self.0)]
    }

    /// "so E = 2048, 1024, 512, 256, 128 and 64 elements in a segment", and for species 6 "E = 128".
    pub fn elements_in_a_segment(self) -> u32 {
        SEGMENT_CELLS as u32 * 32 / self.width()
    }

    /// The ones that an element may have.
    pub fn mask(self) -> u32 {
        u32::MAX >> (32 - self.width())
    }

    /// Whether a number may be an element: else it is "too wide for its species, or outside its range where it is signed".
    pub fn takes(self, number: Element) -> bool {
        self.kind().numbers(self.width()).contains(&number)
    }

    pub fn bits_of(self, element: Element) -> u32 {
        self.kind().bits_of(element, self.width())
    }

    pub fn element_of(self, bits: u32) -> Element {
        self.kind().number_of(bits, self.width())
    }

    /// "Position x lies in the file's stretch floor((x-1)/E)"; positions count from 1.
    pub fn stretch_of(self, position: u32) -> u32 {
        (position - 1) / self.elements_in_a_segment()
    }

    /// "at offset o = (x-1) mod E."
    pub fn offset_of(self, position: u32) -> u32 {
        (position - 1) % self.elements_in_a_segment()
    }

    /// "A file holds one segment for each stretch with at least one of its positions, and no other; an empty
    /// file holds none." Needs 1 <= begin <= end.
    pub fn held_stretches(self, begin: u32, end: u32) -> Range<u32> {
        if begin == end {
            return 0..0;
        }
        self.stretch_of(begin)..self.stretch_of(end - 1) + 1
    }
}

#[cfg(test)]
mod tests {
    use super::*;

    fn species(number: u32) -> Species {
        Species::from_number(number).expect("0 to 6")
    }

    #[test]
    fn widths_and_elements() {
        let widths: Vec<u32> = (0..7).map(|n| species(n).width()).collect();
        let elements: Vec<u32> = (0..7).map(|n| species(n).elements_in_a_segment()).collect();
        assert_eq!(widths, [1, 2, 4, 8, 16, 32, 16]);
        assert_eq!(elements, [2048, 1024, 512, 256, 128, 64, 128]);
        assert_eq!(Species::from_number(7), None);
        assert_eq!(Species::from_number(u32::MAX), None);
    }

    #[test]
    fn one_species_is_signed() {
        let signed: Vec<u32> = (0..7).filter(|&n| species(n).kind() == Kind::Signed).collect();
        assert_eq!(signed, [6]);
    }

    #[test]
    fn held_stretches_at_a_boundary() {
        assert_eq!(species(5).held_stretches(64, 66), 0..2);
        assert_eq!(species(5).held_stretches(65, 65).len(), 0);
        assert_eq!(species(5).held_stretches(64, 65), 0..1);
        assert_eq!(species(5).held_stretches(65, 66), 1..2);
    }

    #[test]
    fn held_stretches_at_the_end_of_positions() {
        let last = u32::MAX;
        assert_eq!(species(5).held_stretches(last - 1, last), 67_108_863..67_108_864);
        assert_eq!(species(0).held_stretches(last - 1, last), 2_097_151..2_097_152);
        assert_eq!(species(5).held_stretches(last, last).len(), 0);
        assert_eq!(species(5).held_stretches(1, last).len(), 67_108_864);
    }

    #[test]
    fn what_a_species_takes() {
        assert!(!species(3).takes(300));
        let ends = [
            (0, 0, 1),
            (1, 0, 3),
            (2, 0, 15),
            (3, 0, 255),
            (4, 0, 65_535),
            (5, 0, 4_294_967_295),
            (6, -32_768, 32_767),
        ];
        for (number, least, greatest) in ends {
            let takes = |element| species(number).takes(element);
            assert!(takes(least) && takes(greatest), "species {}", number);
            assert!(!takes(least - 1) && !takes(greatest + 1), "species {}", number);
        }
    }
}
