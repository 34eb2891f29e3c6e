//! How wide a file's elements are, and whether they have a sign.

/// How wide a file's elements are, and whether they have a sign. Calls take a species or its number.
///
/// A number that is no element of the species is [refused](crate::Refusal::TooWide). Signed elements are written and read by
/// [calls of their own](crate#numbers).
///
/// ```
/// use dorrivand::{Refusal, Species, Store};
///
/// let mut store = Store::with_segments(4)?;
/// store.open_new(0, 0, Species::Bits16)?;
/// store.open_new(0, 1, 4)?;
/// assert_eq!(store.species(0, 1), Ok(Species::Bits16));
/// assert_eq!(u32::from(Species::Bits16), 4);
/// assert_eq!(store.open_new(0, 2, 7), Err(Refusal::NoSuchSpecies));
/// # Ok::<(), Refusal>(())
/// ```
#[derive(Clone, Copy, PartialEq, Eq, PartialOrd, Ord, Hash, Debug)]
#[non_exhaustive]
#[repr(u32)]
pub enum Species {
    /// 0: elements of 1 bit.
    Bits1 = 0,
    /// 1: elements of 2 bits.
    Bits2 = 1,
    /// 2: elements of 4 bits.
    Bits4 = 2,
    /// 3: elements of 8 bits.
    Bits8 = 3,
    /// 4: elements of 16 bits.
    Bits16 = 4,
    /// 5: elements of 32 bits, each a cell of the store.
    Bits32 = 5,
    /// 6: signed elements of 16 bits, -32,768 to 32,767.
    Signed16 = 6,
}

impl Species {
    /// All species, by rising number.
    ///
    /// ```
    /// let numbers: Vec<u32> = dorrivand::Species::ALL.iter().map(|species| species.number()).collect();
    /// assert_eq!(numbers, [0, 1, 2, 3, 4, 5, 6]);
    /// ```
    pub const ALL: &'static [Species] = &[
        Species::Bits1,
        Species::Bits2,
        Species::Bits4,
        Species::Bits8,
        Species::Bits16,
        Species::Bits32,
        Species::Signed16,
    ];

    /// The species' number, 0 to 6.
    #[must_use]
    pub const fn number(self) -> u32 {
        self as u32
    }

    /// The species with this number, if there is one.
    ///
    /// ```
    /// use dorrivand::Species;
    ///
    /// assert_eq!(Species::from_number(5), Some(Species::Bits32));
    /// assert_eq!(Species::from_number(7), None);
    /// ```
    #[must_use]
    pub fn from_number(number: u32) -> Option<Species> {
        Species::ALL.iter().copied().find(|species| species.number() == number)
    }
}

impl From<Species> for u32 {
    fn from(species: Species) -> u32 {
        species.number()
    }
}

/// A species or a number for one. `Into<u32>` alone would not do: a bare `5` would be taken for an `i32`, which is none.
pub trait SpeciesNumber: Into<u32> + sealed::Sealed {}

impl SpeciesNumber for Species {}
impl SpeciesNumber for u32 {}

mod sealed {
    pub trait Sealed {}
    impl Sealed for super::Species {}
    impl Sealed for u32 {}
}
