//! Numbers to be written, by the width of a file's elements, and the words of both kinds of calls.

use crate::teller::Teller;
use filing::rules::element::{Element, Kind};
use filing::rules::species::Species;

/// Of the numbers that a line can say, plain or signed.
const BITS_IN_A_LINE: u32 = 32;

impl Teller {
    fn species_at(&self, (user, entry): (u32, u32)) -> Option<Species> {
        let opening = self.catalogue()?.opening(user, entry).ok()?;
        Some(opening.file.species())
    }

    /// Mostly the kind of calls that the species there takes.
    pub fn kind_at(&mut self, at: (u32, u32)) -> Kind {
        let kind = self.species_at(at).map_or(Kind::Plain, Species::kind);
        match (self.random.once_in(12), kind) {
            (false, kind) => kind,
            (true, Kind::Plain) => Kind::Signed,
            (true, Kind::Signed) => Kind::Plain,
        }
    }

    /// A number for a call of this kind: mostly one that fits the width there, else one about the ends of those, or any.
    pub fn number_at(&mut self, at: (u32, u32), kind: Kind) -> Element {
        let width = self.species_at(at).map_or(BITS_IN_A_LINE, Species::width);
        let (fitting, sayable) = (kind.numbers(width), kind.numbers(BITS_IN_A_LINE));
        let number = match self.random.below(10) {
            0 => self.random.one_of(&[*fitting.start(), *fitting.end()]),
            1 => self.random.one_of(&[*fitting.start() - 1, *fitting.end() + 1]),
            // Cut to its lowest bits it would fit.
            2 => self.random.among(&fitting) + (1 << width),
            3 => self.random.among(&sayable),
            _ => self.random.among(&fitting),
        };
        number.clamp(*sayable.start(), *sayable.end())
    }
}

/// The word of a call of this kind, by the plain one's.
pub fn word(plain: &str, kind: Kind) -> String {
    match kind {
        Kind::Plain => plain.to_string(),
        Kind::Signed => format!("{plain}_signed"),
    }
}
