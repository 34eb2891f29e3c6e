//! Elements as callers say and hear them, and as bits: plain numbers, and signed ones with "the top bit counting minus
//! 32,768". Both are one rule over the width.

use std::ops::RangeInclusive;

/// Wide enough for every plain number of 32 bits and every signed one.
pub type Element = i64;

/// The two kinds of access: species 6 "has its own write and next and prev that take and give a signed number".
#[derive(Clone, Copy, PartialEq, Eq, PartialOrd, Ord, Debug)]
pub enum Kind {
    Plain,
    Signed,
}

impl Kind {
    /// The numbers that so many bits can hold; any other one is "too wide for its species, or outside its range where it
    /// is signed".
    pub fn numbers(self, width: u32) -> RangeInclusive<Element> {
        match self {
            Kind::Plain => 0..=(1 << width) - 1,
            Kind::Signed => -(1 << (width - 1))..=(1 << (width - 1)) - 1,
        }
    }

    /// The number that these lowest bits say, all above them being zero.
    pub fn number_of(self, bits: u32, width: u32) -> Element {
        let top_bit = bits & 1 << (width - 1);
        match self {
            Kind::Plain => Element::from(bits),
            Kind::Signed => Element::from(bits - top_bit) - Element::from(top_bit),
        }
    }

    /// The bits of one of the numbers above: below zero they are those of the number that is 2^width greater.
    pub fn bits_of(self, number: Element, width: u32) -> u32 {
        let beyond = 1 << width;
        match self {
            Kind::Signed if number < 0 => (number + beyond) as u32,
            _ => number as u32,
        }
    }
}

#[cfg(test)]
mod tests {
    use super::*;

    #[test]
    fn signed_in_sixteen_bits() {
        assert_eq!(Kind::Signed.numbers(16), -32_768..=32_767);
        let pairs =
            [(0, 0), (1, 1), (32_767, 0x7FFF), (-32_768, 0x8000), (-32_767, 0x8001), (-2, 0xFFFE), (-1, 0xFFFF)];
        for (number, bits) in pairs {
            assert_eq!(Kind::Signed.bits_of(number, 16), bits, "{}", number);
            assert_eq!(Kind::Signed.number_of(bits, 16), number, "{}", bits);
        }
    }

    #[test]
    fn plain_in_every_width() {
        let greatest = [(1, 1), (2, 3), (4, 15), (8, 255), (16, 65_535), (32, 4_294_967_295)];
        for (width, number) in greatest {
            assert_eq!(Kind::Plain.numbers(width), 0..=number);
            assert_eq!(Kind::Plain.number_of(number as u32, width), number);
            assert_eq!(Kind::Plain.bits_of(number, width), number as u32);
        }
    }

    /// "Prove packing still once over the width": there and back, over all bits that sixteen of them can be.
    #[test]
    fn there_and_back() {
        for kind in [Kind::Plain, Kind::Signed] {
            for bits in 0..=0xFFFF {
                let number = kind.number_of(bits, 16);
                assert!(kind.numbers(16).contains(&number), "{:?}: {}", kind, number);
                assert_eq!(kind.bits_of(number, 16), bits);
            }
        }
    }
}
