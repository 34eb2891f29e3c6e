//! The species whose elements have no sign, each with its greatest element.

use dorrivand::Species;

pub const PLAIN: [(Species, u32); 6] = [
    (Species::Bits1, 1),
    (Species::Bits2, 3),
    (Species::Bits4, 15),
    (Species::Bits8, 255),
    (Species::Bits16, 65_535),
    (Species::Bits32, u32::MAX),
];
