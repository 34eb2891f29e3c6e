//! Why a call is refused.

use std::error::Error;
use std::fmt;

/// Why a call is refused, or a run is stopped. A refused call has changed nothing.
///
/// No refusal has the number 12: it told of another's private file, which is [unknown](Refusal::UnknownName) now, like a file
/// that is not there.
///
/// ```
/// use dorrivand::Refusal;
///
/// assert_eq!(Refusal::NotNow.number(), 14);
/// assert_eq!(Refusal::NotNow.to_string(), "not now");
/// assert_eq!(Refusal::from_number(14), Some(Refusal::NotNow));
/// ```
#[derive(Clone, Copy, PartialEq, Eq, PartialOrd, Ord, Hash, Debug)]
#[non_exhaustive]
#[repr(u32)]
pub enum Refusal {
    /// 1: user above 7.
    NoSuchUser = 1,
    /// 2: entry above 3, or not open where it must be.
    EntryNotOpen = 2,
    /// 3: entry open at an opening.
    EntryOpen = 3,
    /// 4: not a pointer of the file, or a standard one to delete.
    NotAPointer = 4,
    /// 5: no work permit.
    NoWorkPermit = 5,
    /// 6: below the begin.
    BelowBegin = 6,
    /// 7: beyond the end.
    BeyondEnd = 7,
    /// 8: a 33rd segment needed.
    TooManySegments = 8,
    /// 9: no room: a segment needed, none free.
    NoRoom = 9,
    /// 10: positions used up: the end value is 4,294,967,295, and cannot grow.
    PositionsUsedUp = 10,
    /// 11: unknown name.
    UnknownName = 11,
    /// 13: no work on another's file.
    NoWorkOnAnothers = 13,
    /// 14: not now.
    NotNow = 14,
    /// 15: old file asked for by the empty name.
    EmptyName = 15,
    /// 16: name taken by another record.
    NameTaken = 16,
    /// 17: new file, no free place.
    NoFreePlace = 17,
    /// 18: read or scratch closed as public.
    NotToBePublic = 18,
    /// 19: species above 6, or of the other kind of call.
    NoSuchSpecies = 19,
    /// 20: tables of wrong length or unsound, or store under 64 cells.
    UnsoundTables = 20,
    /// 21: no own pointer left.
    NoPointerLeft = 21,
    /// 22: image of wrong length, or unsound.
    UnsoundImage = 22,
    /// 23: a number too wide for its species, or outside its range where it is signed.
    TooWide = 23,
    /// 24: a begin or an end too great for the old image: it is above 16,777,215.
    Far = 24,
}

impl Refusal {
    /// All refusals, by rising number.
    ///
    /// ```
    /// let numbers: Vec<u32> = dorrivand::Refusal::ALL.iter().map(|refusal| refusal.number()).collect();
    /// assert_eq!(numbers, (1..=24).filter(|&number| number != 12).collect::<Vec<u32>>());
    /// ```
    pub const ALL: &'static [Refusal] = &[
        Refusal::NoSuchUser,
        Refusal::EntryNotOpen,
        Refusal::EntryOpen,
        Refusal::NotAPointer,
        Refusal::NoWorkPermit,
        Refusal::BelowBegin,
        Refusal::BeyondEnd,
        Refusal::TooManySegments,
        Refusal::NoRoom,
        Refusal::PositionsUsedUp,
        Refusal::UnknownName,
        Refusal::NoWorkOnAnothers,
        Refusal::NotNow,
        Refusal::EmptyName,
        Refusal::NameTaken,
        Refusal::NoFreePlace,
        Refusal::NotToBePublic,
        Refusal::NoSuchSpecies,
        Refusal::UnsoundTables,
        Refusal::NoPointerLeft,
        Refusal::UnsoundImage,
        Refusal::TooWide,
        Refusal::Far,
    ];

    /// The refusal's number, 1 to 24 but 12.
    #[must_use]
    pub const fn number(self) -> u32 {
        self as u32
    }

    /// The refusal with this number, if there is one.
    ///
    /// ```
    /// use dorrivand::Refusal;
    ///
    /// assert_eq!(Refusal::from_number(9), Some(Refusal::NoRoom));
    /// assert_eq!(Refusal::from_number(0), None);
    /// assert_eq!(Refusal::from_number(12), None);
    /// assert_eq!(Refusal::from_number(25), None);
    /// ```
    #[must_use]
    pub fn from_number(number: u32) -> Option<Refusal> {
        Refusal::ALL.iter().copied().find(|refusal| refusal.number() == number)
    }

    fn words(self) -> &'static str {
        match self {
            Refusal::NoSuchUser => "user above 7",
            Refusal::EntryNotOpen => "entry above 3, or not open where it must be",
            Refusal::EntryOpen => "entry open at an opening",
            Refusal::NotAPointer => "not a pointer of the file, or a standard one to delete",
            Refusal::NoWorkPermit => "no work permit",
            Refusal::BelowBegin => "below the begin",
            Refusal::BeyondEnd => "beyond the end",
            Refusal::TooManySegments => "a 33rd segment needed",
            Refusal::NoRoom => "no room: a segment needed, none free",
            Refusal::PositionsUsedUp => "positions used up",
            Refusal::UnknownName => "unknown name",
            Refusal::NoWorkOnAnothers => "no work on another's file",
            Refusal::NotNow => "not now",
            Refusal::EmptyName => "old file asked for by the empty name",
            Refusal::NameTaken => "name taken by another record",
            Refusal::NoFreePlace => "new file, no free place",
            Refusal::NotToBePublic => "read or scratch closed as public",
            Refusal::NoSuchSpecies => "species above 6, or of the other kind of call",
            Refusal::UnsoundTables => "tables of wrong length or unsound, or store under 64 cells",
            Refusal::NoPointerLeft => "no own pointer left",
            Refusal::UnsoundImage => "image of wrong length, or unsound",
            Refusal::TooWide => "a number too wide for its species, or outside its range where it is signed",
            Refusal::Far => "a begin or an end too great for the old image",
        }
    }
}

impl fmt::Display for Refusal {
    fn fmt(&self, formatter: &mut fmt::Formatter<'_>) -> fmt::Result {
        formatter.pad(self.words())
    }
}

impl Error for Refusal {}
