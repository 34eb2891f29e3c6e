//! Writing and reading elements through pointers.

use crate::answer::without_number;
use crate::door;
use crate::refusal::Refusal;
use crate::store::Store;

impl Store<'_> {
    /// Writes a number through a pointer, which grows by 1. Through the [end](crate::pointer::END) it is appended. Through
    /// the [begin](crate::pointer::BEGIN) the first element is dropped and the number is not used. Through others it
    /// replaces the element where the pointer stands. Through any of them, the begin too, a number that is too wide for the
    /// species is refused.
    ///
    /// # Errors
    ///
    /// [`UnsoundTables`](Refusal::UnsoundTables) (20), [`NoSuchUser`](Refusal::NoSuchUser) (1),
    /// [`EntryNotOpen`](Refusal::EntryNotOpen) (2), [`NoSuchSpecies`](Refusal::NoSuchSpecies) (19) for signed elements,
    /// [`NotAPointer`](Refusal::NotAPointer) (4), [`NoWorkPermit`](Refusal::NoWorkPermit) (5),
    /// [`BelowBegin`](Refusal::BelowBegin) (6), [`BeyondEnd`](Refusal::BeyondEnd) (7) but not through the end,
    /// [`TooWide`](Refusal::TooWide) (23), [`PositionsUsedUp`](Refusal::PositionsUsedUp) (10) for an append where the end is
    /// 4,294,967,295, [`TooManySegments`](Refusal::TooManySegments) (8), [`NoRoom`](Refusal::NoRoom) (9).
    ///
    /// ```
    /// use dorrivand::{pointer, Refusal, Species, Store};
    ///
    /// let mut store = Store::with_segments(1)?;
    /// store.open_new(0, 0, Species::Bits8)?;
    /// store.write(0, 0, pointer::END, 255)?;
    /// store.write(0, 0, pointer::END, 20)?;
    /// assert_eq!(store.write(0, 0, pointer::END, 300), Err(Refusal::TooWide)); // 8 bits are 0 to 255
    /// assert_eq!(store.next(0, 0, pointer::WORK), Ok(255));
    /// store.write(0, 0, pointer::WORK, 21)?;
    /// assert_eq!(store.write(0, 0, pointer::WORK, 22), Err(Refusal::BeyondEnd));
    /// assert_eq!(store.prev(0, 0, pointer::END), Ok(21));
    ///
    /// store.open_new(1, 0, Species::Bits8)?;
    /// assert_eq!(store.write(1, 0, pointer::END, 1), Err(Refusal::NoRoom));
    /// # Ok::<(), Refusal>(())
    /// ```
    pub fn write(&mut self, user: u32, entry: u32, pointer: u32, number: u32) -> Result<(), Refusal> {
        without_number(door::write(&mut self.cells, &mut self.tables, user, entry, pointer, number))
    }

    /// Delivers the element where the pointer stands; the pointer grows by 1. Through the [begin](crate::pointer::BEGIN)
    /// the element leaves the file, which needs the work permit.
    ///
    /// # Errors
    ///
    /// [`UnsoundTables`](Refusal::UnsoundTables) (20), [`NoSuchUser`](Refusal::NoSuchUser) (1),
    /// [`EntryNotOpen`](Refusal::EntryNotOpen) (2), [`NoSuchSpecies`](Refusal::NoSuchSpecies) (19) for signed elements,
    /// [`NotAPointer`](Refusal::NotAPointer) (4), [`NoWorkPermit`](Refusal::NoWorkPermit) (5) through the begin,
    /// [`BelowBegin`](Refusal::BelowBegin) (6), [`BeyondEnd`](Refusal::BeyondEnd) (7).
    ///
    /// ```
    /// use dorrivand::{pointer, Refusal, Species, Store};
    ///
    /// let mut store = Store::with_segments(1)?;
    /// store.open_new(0, 0, Species::Bits32)?;
    /// store.write(0, 0, pointer::END, 10)?;
    /// store.write(0, 0, pointer::END, 20)?;
    /// assert_eq!(store.next(0, 0, pointer::BEGIN), Ok(10));
    /// assert_eq!((store.begin(0, 0), store.end(0, 0)), (Ok(2), Ok(3)));
    /// assert_eq!(store.next(0, 0, pointer::WORK), Err(Refusal::BelowBegin));
    /// # Ok::<(), Refusal>(())
    /// ```
    pub fn next(&mut self, user: u32, entry: u32, pointer: u32) -> Result<u32, Refusal> {
        door::next(&self.cells, &mut self.tables, user, entry, pointer)
    }

    /// The pointer falls by 1; delivers the element where it then stands. Through the [end](crate::pointer::END) the
    /// element leaves the file, which needs the work permit.
    ///
    /// # Errors
    ///
    /// [`UnsoundTables`](Refusal::UnsoundTables) (20), [`NoSuchUser`](Refusal::NoSuchUser) (1),
    /// [`EntryNotOpen`](Refusal::EntryNotOpen) (2), [`NoSuchSpecies`](Refusal::NoSuchSpecies) (19) for signed elements,
    /// [`NotAPointer`](Refusal::NotAPointer) (4), [`NoWorkPermit`](Refusal::NoWorkPermit) (5) through the end,
    /// [`BelowBegin`](Refusal::BelowBegin) (6), [`BeyondEnd`](Refusal::BeyondEnd) (7).
    ///
    /// ```
    /// use dorrivand::{pointer, Refusal, Species, Store};
    ///
    /// let mut store = Store::with_segments(1)?;
    /// store.open_new(0, 0, Species::Bits32)?;
    /// store.write(0, 0, pointer::END, 10)?;
    /// store.write(0, 0, pointer::END, 20)?;
    /// assert_eq!(store.prev(0, 0, pointer::END), Ok(20));
    /// assert_eq!(store.prev(0, 0, pointer::END), Ok(10));
    /// assert_eq!(store.prev(0, 0, pointer::END), Err(Refusal::BelowBegin));
    /// # Ok::<(), Refusal>(())
    /// ```
    pub fn prev(&mut self, user: u32, entry: u32, pointer: u32) -> Result<u32, Refusal> {
        door::prev(&self.cells, &mut self.tables, user, entry, pointer)
    }
}
