//! Writing and reading signed elements through pointers: "species 6: signed temperatures from -32,768 to 32,767".

use crate::answer::without_number;
use crate::door;
use crate::refusal::Refusal;
use crate::store::Store;

impl Store<'_> {
    /// Writes a signed number through a pointer, as [`write`](Store::write) does a plain one. Through any pointer, the begin
    /// too, a number below -32,768 or above 32,767 is refused.
    ///
    /// # Errors
    ///
    /// [`UnsoundTables`](Refusal::UnsoundTables) (20), [`NoSuchUser`](Refusal::NoSuchUser) (1),
    /// [`EntryNotOpen`](Refusal::EntryNotOpen) (2), [`NoSuchSpecies`](Refusal::NoSuchSpecies) (19) for elements that are not
    /// signed, [`NotAPointer`](Refusal::NotAPointer) (4), [`NoWorkPermit`](Refusal::NoWorkPermit) (5),
    /// [`BelowBegin`](Refusal::BelowBegin) (6), [`BeyondEnd`](Refusal::BeyondEnd) (7) but not through the end,
    /// [`TooWide`](Refusal::TooWide) (23), [`PositionsUsedUp`](Refusal::PositionsUsedUp) (10),
    /// [`TooManySegments`](Refusal::TooManySegments) (8), [`NoRoom`](Refusal::NoRoom) (9).
    ///
    /// ```
    /// use dorrivand::{pointer, Refusal, Species, Store};
    ///
    /// let mut store = Store::with_segments(1)?;
    /// store.open_new(0, 0, Species::Signed16)?;
    /// store.write_signed(0, 0, pointer::END, 3)?;
    /// store.write_signed(0, 0, pointer::END, -5)?;
    /// assert_eq!(store.write_signed(0, 0, pointer::END, 32_768), Err(Refusal::TooWide));
    /// store.write_signed(0, 0, pointer::WORK, -32_768)?;
    /// assert_eq!(store.write(0, 0, pointer::WORK, 3), Err(Refusal::NoSuchSpecies));
    ///
    /// // In the store they have 16 bits each, the top bit counting minus 32,768.
    /// assert_eq!(store.cells()[0], 0x8000_FFFB);
    /// # Ok::<(), Refusal>(())
    /// ```
    pub fn write_signed(&mut self, user: u32, entry: u32, pointer: u32, number: i32) -> Result<(), Refusal> {
        without_number(door::write_signed(&mut self.cells, &mut self.tables, user, entry, pointer, number))
    }

    /// Delivers the signed element where the pointer stands, as [`next`](Store::next) does a plain one: -32,768 to 32,767.
    ///
    /// # Errors
    ///
    /// [`UnsoundTables`](Refusal::UnsoundTables) (20), [`NoSuchUser`](Refusal::NoSuchUser) (1),
    /// [`EntryNotOpen`](Refusal::EntryNotOpen) (2), [`NoSuchSpecies`](Refusal::NoSuchSpecies) (19) for elements that are not
    /// signed, [`NotAPointer`](Refusal::NotAPointer) (4), [`NoWorkPermit`](Refusal::NoWorkPermit) (5) through the begin,
    /// [`BelowBegin`](Refusal::BelowBegin) (6), [`BeyondEnd`](Refusal::BeyondEnd) (7).
    ///
    /// ```
    /// use dorrivand::{pointer, Refusal, Species, Store};
    ///
    /// let mut store = Store::with_segments(1)?;
    /// store.open_new(0, 0, Species::Signed16)?;
    /// store.write_signed(0, 0, pointer::END, -5)?;
    /// assert_eq!(store.next_signed(0, 0, pointer::WORK), Ok(-5));
    /// assert_eq!(store.next_signed(0, 0, pointer::WORK), Err(Refusal::BeyondEnd));
    /// assert_eq!(store.next(0, 0, pointer::BEGIN), Err(Refusal::NoSuchSpecies));
    /// # Ok::<(), Refusal>(())
    /// ```
    pub fn next_signed(&mut self, user: u32, entry: u32, pointer: u32) -> Result<i32, Refusal> {
        door::next_signed(&self.cells, &mut self.tables, user, entry, pointer)
    }

    /// The pointer falls by 1; delivers the signed element where it then stands, as [`prev`](Store::prev) does a plain one:
    /// -32,768 to 32,767.
    ///
    /// # Errors
    ///
    /// [`UnsoundTables`](Refusal::UnsoundTables) (20), [`NoSuchUser`](Refusal::NoSuchUser) (1),
    /// [`EntryNotOpen`](Refusal::EntryNotOpen) (2), [`NoSuchSpecies`](Refusal::NoSuchSpecies) (19) for elements that are not
    /// signed, [`NotAPointer`](Refusal::NotAPointer) (4), [`NoWorkPermit`](Refusal::NoWorkPermit) (5) through the end,
    /// [`BelowBegin`](Refusal::BelowBegin) (6), [`BeyondEnd`](Refusal::BeyondEnd) (7).
    ///
    /// ```
    /// use dorrivand::{pointer, Refusal, Species, Store};
    ///
    /// let mut store = Store::with_segments(1)?;
    /// store.open_new(0, 0, Species::Signed16)?;
    /// store.write_signed(0, 0, pointer::END, -5)?;
    /// assert_eq!(store.prev_signed(0, 0, pointer::END), Ok(-5));
    /// assert_eq!(store.prev_signed(0, 0, pointer::END), Err(Refusal::BelowBegin));
    ///
    /// // 16 bits without a sign are another species.
    /// store.open_new(0, 1, Species::Bits16)?;
    /// assert_eq!(store.prev_signed(0, 1, pointer::END), Err(Refusal::NoSuchSpecies));
    /// # Ok::<(), Refusal>(())
    /// ```
    pub fn prev_signed(&mut self, user: u32, entry: u32, pointer: u32) -> Result<i32, Refusal> {
        door::prev_signed(&self.cells, &mut self.tables, user, entry, pointer)
    }
}
