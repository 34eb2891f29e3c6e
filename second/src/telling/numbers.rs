//! Numbers to be written, by what the species takes: mostly fitting ones, some at the edges, some far beyond, so that
//! files come to hold something and refusal 23 comes where it is wanted.

use super::teller::Teller;
use crate::rules::element::{Element, Kind};
use crate::rules::species::Species;
use std::ops::RangeInclusive;

/// The bits of the numbers that a line can say, plain or signed: "0 to 4294967295", "-2147483648 to 2147483647".
const BITS_IN_A_LINE: u32 = 32;

impl Teller {
    /// A number for a call of this kind, about as wide as an element of this species, if there is one.
    pub fn a_number_for(&mut self, kind: Kind, species: Option<Species>) -> Element {
        let width = species.map_or(BITS_IN_A_LINE, Species::width);
        match self.random.weighted(&[88, 12]) {
            0 => self.a_fitting_number(kind, width),
            _ => self.a_number_about_the_edges(kind, width),
        }
    }

    pub fn a_fitting_number(&mut self, kind: Kind, width: u32) -> Element {
        let fitting = kind.numbers(width);
        let number = match self.random.weighted(&[35, 45, 20]) {
            0 => self.random.pick(&[-2, -1, 0, 1, 2, 3, 44]),
            1 => self.a_number_in(&fitting),
            _ => self.random.pick(&[*fitting.start(), *fitting.end()]),
        };
        number.clamp(*fitting.start(), *fitting.end())
    }

    /// Just inside, just beyond, or far beyond; what is wider than all that a line can say is its widest number.
    fn a_number_about_the_edges(&mut self, kind: Kind, width: u32) -> Element {
        let (fitting, sayable) = (kind.numbers(width), kind.numbers(BITS_IN_A_LINE));
        let number = match self.random.below(6) {
            0 => self.random.pick(&[*fitting.start(), *fitting.end()]),
            1 | 2 => self.random.pick(&[*fitting.start() - 1, *fitting.end() + 1]),
            // Cut to its lowest bits, as numbers once were, it would fit.
            3 => self.a_number_in(&fitting) + (1 << width),
            4 => self.random.pick(&[*sayable.start(), *sayable.end()]),
            _ => self.a_number_in(&sayable),
        };
        number.clamp(*sayable.start(), *sayable.end())
    }

    /// One that is "too wide for its species, or outside its range where it is signed"; 32 plain bits take every number.
    pub fn a_number_out_of_range(&mut self, species: Species) -> Option<Element> {
        if species.width() == BITS_IN_A_LINE {
            return None;
        }
        loop {
            let number = self.a_number_about_the_edges(species.kind(), species.width());
            if !species.takes(number) {
                return Some(number);
            }
        }
    }

    fn a_number_in(&mut self, numbers: &RangeInclusive<Element>) -> Element {
        let count = (numbers.end() - numbers.start() + 1) as u64;
        numbers.start() + (self.random.any() % count) as Element
    }
}

#[cfg(test)]
mod tests {
    use super::*;
    use crate::rules::species::SPECIES;
    use crate::telling::mode::Mode;

    /// Every number can be said; most fit, and both edges, those just beyond and others far beyond come up.
    #[test]
    fn numbers_by_the_width() {
        let mut teller = Teller::new(1, Mode::Mixed);
        for number in 0..SPECIES as u32 {
            let species = Species::from_number(number).expect("0 to 6");
            let (fitting, sayable) = (species.kind().numbers(species.width()), species.kind().numbers(BITS_IN_A_LINE));
            let drawn: Vec<Element> = (0..4_000).map(|_| teller.a_number_for(species.kind(), Some(species))).collect();
            assert!(drawn.iter().all(|number| sayable.contains(number)), "species {}", number);
            let count_fitting = drawn.iter().filter(|number| fitting.contains(number)).count();
            assert!(count_fitting > 3_400, "species {}: {} fit", number, count_fitting);
            for edge in [fitting.start() - 1, *fitting.start(), *fitting.end(), fitting.end() + 1] {
                let comes_up = drawn.contains(&edge);
                assert_eq!(comes_up, sayable.contains(&edge), "species {}: {}", number, edge);
            }
            let far_beyond = drawn.iter().any(|number| *number > fitting.end() + 100);
            assert_eq!(far_beyond, *fitting.end() < *sayable.end(), "species {}", number);
        }
    }

    #[test]
    fn numbers_out_of_range() {
        let mut teller = Teller::new(2, Mode::Mixed);
        for number in 0..SPECIES as u32 {
            let species = Species::from_number(number).expect("0 to 6");
            let drawn = (0..100).filter_map(|_| teller.a_number_out_of_range(species)).collect::<Vec<Element>>();
            assert_eq!(drawn.len(), if number == 5 { 0 } else { 100 });
            assert!(drawn.into_iter().all(|drawn| !species.takes(drawn)), "species {}", number);
        }
    }
}
