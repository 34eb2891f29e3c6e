//! Document 02, P5: plain numbers, and signed ones for species 6.
use super::placing::{greatest, SIGNED_SPECIES, WHOLE_SPECIES};

/// A number as calls take and give it. Signed ones "refuse species 0 to 5", plain ones "refuse species 6".
pub trait Number: Copy {
    fn is_kind_of(species: u32) -> bool;
    /// Whether it is a number of a species of its kind.
    fn fits(self, species: u32) -> bool;
    /// The element in the store, and back.
    fn bits(self) -> u32;
    fn of(bits: u32) -> Self;
}

impl Number for u32 {
    fn is_kind_of(species: u32) -> bool {
        species != SIGNED_SPECIES
    }

    fn fits(self, species: u32) -> bool {
        self <= greatest(species)
    }

    fn bits(self) -> u32 {
        self
    }

    fn of(bits: u32) -> u32 {
        bits
    }
}

/// "from -32,768 to 32,767 in 16 bits, the top bit counting minus 32,768"
impl Number for i32 {
    fn is_kind_of(species: u32) -> bool {
        species == SIGNED_SPECIES
    }

    fn fits(self, _: u32) -> bool {
        i16::try_from(self).is_ok()
    }

    fn bits(self) -> u32 {
        u32::from(self as u16)
    }

    fn of(bits: u32) -> i32 {
        i32::from(bits as u16 as i16)
    }
}

/// How many plain numbers come before the first that is too wide.
pub fn fitting(species: u32, numbers: &[u32]) -> usize {
    // no number is too wide for a cell
    if species == WHOLE_SPECIES {
        return numbers.len();
    }
    // mostly all fit; without an early exit, so that the compiler makes it wide
    if numbers.iter().fold(0, |bits, &number| bits | number).fits(species) {
        return numbers.len();
    }
    numbers.iter().take_while(|number| number.fits(species)).count()
}
