//! Elements written and read through an entry: mostly by the calls that its species takes, now and then by the others.

use super::teller::Teller;
use crate::rules::element::{Element, Kind};
use crate::rules::species::{Species, SPECIES};

/// Of a hundred calls, those of the kind that the species refuses.
const WRONG_KINDS: u32 = 2;

impl Teller {
    /// Any species that there is.
    pub fn a_known_species(&mut self) -> u32 {
        self.random.below(SPECIES as u32)
    }

    /// The species of the file that is open there.
    pub fn species_at(&self, user: u32, entry: u32) -> Option<Species> {
        let opening = self.catalogue()?.opening(user, entry).ok()?;
        Some(opening.file.species())
    }

    /// Whether the signed calls are those for an entry.
    pub fn is_signed(&self, user: u32, entry: u32) -> bool {
        self.species_at(user, entry).map_or(false, |species| species.kind() == Kind::Signed)
    }

    fn a_kind_for(&mut self, user: u32, entry: u32) -> Kind {
        match self.is_signed(user, entry) != self.random.chance(WRONG_KINDS) {
            true => Kind::Signed,
            false => Kind::Plain,
        }
    }

    pub fn write(&mut self, user: u32, entry: u32, pointer: u32) -> String {
        let kind = self.a_kind_for(user, entry);
        let number = self.a_number_for(kind, self.species_at(user, entry));
        self.write_number(kind, user, entry, pointer, number)
    }

    pub fn write_number(&mut self, kind: Kind, user: u32, entry: u32, pointer: u32, number: Element) -> String {
        self.say(format!("{} {} {} {} {}", word("write", kind), user, entry, pointer, number))
    }

    pub fn next(&mut self, user: u32, entry: u32, pointer: u32) -> String {
        self.step("next", user, entry, pointer)
    }

    pub fn prev(&mut self, user: u32, entry: u32, pointer: u32) -> String {
        self.step("prev", user, entry, pointer)
    }

    /// A next or a prev, by its plain word.
    pub fn step(&mut self, plain_word: &str, user: u32, entry: u32, pointer: u32) -> String {
        let kind = self.a_kind_for(user, entry);
        self.say(format!("{} {} {} {}", word(plain_word, kind), user, entry, pointer))
    }

    /// One write, next or prev.
    pub fn access_once(&mut self, user: u32, entry: u32, pointer: u32) -> String {
        match self.random.weighted(&[10, 5, 5]) {
            0 => self.write(user, entry, pointer),
            1 => self.next(user, entry, pointer),
            _ => self.prev(user, entry, pointer),
        }
    }
}

/// The word of a call of this kind: a signed call is named after its plain twin.
pub fn word(plain_word: &str, kind: Kind) -> String {
    match kind {
        Kind::Plain => plain_word.to_string(),
        Kind::Signed => format!("{}_signed", plain_word),
    }
}
