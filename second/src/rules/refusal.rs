//! "The numbers a refusal carries."

use super::element::Element;

#[derive(Clone, Copy, PartialEq, Eq, Debug)]
pub enum Refusal {
    UserAboveSeven = 1,
    EntryNotThere = 2,
    EntryOpen = 3,
    NotAPointer = 4,
    NoWorkPermit = 5,
    BelowTheBegin = 6,
    BeyondTheEnd = 7,
    ThirtyThirdSegment = 8,
    NoRoom = 9,
    PositionsUsedUp = 10,
    UnknownName = 11,
    // Document 02: "12 is never given again." The number stays a hole, so that no other refusal is taken for the old one.
    NoWorkOnAnothers = 13,
    NotNow = 14,
    OldFileWithoutName = 15,
    NameTaken = 16,
    NoFreePlace = 17,
    NotToBePublic = 18,
    // No such species where a file is opened; a species of the other kind where an element is written or read.
    SpeciesUnfit = 19,
    TablesOrStoreUnfit = 20,
    NoOwnPointerLeft = 21,
    ImageUnfit = 22,
    // Document 02: "A number too wide for its species, or outside its range where it is signed, is now refused".
    NumberOutOfRange = 23,
    // Document 02: "A sound form 2 image moves down exactly if every begin and end is at most 16,777,215, else refusal 24."
    BoundsTooWide = 24,
}

impl Refusal {
    pub fn number(self) -> u32 {
        self as u32
    }
}

/// "An answer is either done, with its number where there is one, or refused, with one of these inside it."
/// Where the rules give no number, the number is 0; where it is an element of species 6, it may be below 0.
pub type Answer = Result<Element, Refusal>;
