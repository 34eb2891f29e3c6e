//! The work pointer and own pointers of an open file.

use crate::answer::without_number;
use crate::door;
use crate::refusal::Refusal;
use crate::store::Store;

impl Store<'_> {
    /// Puts the work pointer at the begin value. When an old file is opened for work, it stands at the end.
    ///
    /// # Errors
    ///
    /// [`UnsoundTables`](Refusal::UnsoundTables) (20), [`NoSuchUser`](Refusal::NoSuchUser) (1),
    /// [`EntryNotOpen`](Refusal::EntryNotOpen) (2).
    ///
    /// ```
    /// use dorrivand::{pointer, Species, Store};
    ///
    /// let mut store = Store::with_segments(4)?;
    /// store.open_new(0, 0, Species::Bits32)?;
    /// store.write(0, 0, pointer::END, 10)?;
    /// assert_eq!((store.next(0, 0, pointer::WORK), store.value(0, 0, pointer::WORK)), (Ok(10), Ok(2)));
    /// store.reset(0, 0)?;
    /// assert_eq!(store.value(0, 0, pointer::WORK), Ok(1));
    /// # Ok::<(), dorrivand::Refusal>(())
    /// ```
    pub fn reset(&mut self, user: u32, entry: u32) -> Result<(), Refusal> {
        without_number(door::reset(&self.cells, &mut self.tables, user, entry))
    }

    /// Makes an own pointer with the value of the given one. The answer is its name, the lowest free one of
    /// [`pointer::OWN`](crate::pointer::OWN).
    ///
    /// # Errors
    ///
    /// [`UnsoundTables`](Refusal::UnsoundTables) (20), [`NoSuchUser`](Refusal::NoSuchUser) (1),
    /// [`EntryNotOpen`](Refusal::EntryNotOpen) (2), [`NotAPointer`](Refusal::NotAPointer) (4),
    /// [`NoPointerLeft`](Refusal::NoPointerLeft) (21).
    ///
    /// ```
    /// use dorrivand::{pointer, Refusal, Species, Store};
    ///
    /// let mut store = Store::with_segments(4)?;
    /// store.open_new(0, 0, Species::Bits32)?;
    /// store.write(0, 0, pointer::END, 10)?;
    /// assert_eq!(store.new_pointer(0, 0, pointer::END), Ok(3));
    /// assert_eq!(store.value(0, 0, 3), Ok(2));
    /// for name in 4..=7 {
    ///     assert_eq!(store.new_pointer(0, 0, 3), Ok(name));
    /// }
    /// assert_eq!(store.new_pointer(0, 0, 3), Err(Refusal::NoPointerLeft));
    /// # Ok::<(), Refusal>(())
    /// ```
    pub fn new_pointer(&mut self, user: u32, entry: u32, pointer: u32) -> Result<u32, Refusal> {
        door::pointer(&self.cells, &mut self.tables, user, entry, pointer)
    }

    /// Deletes an own pointer. No other can be deleted.
    ///
    /// # Errors
    ///
    /// [`UnsoundTables`](Refusal::UnsoundTables) (20), [`NoSuchUser`](Refusal::NoSuchUser) (1),
    /// [`EntryNotOpen`](Refusal::EntryNotOpen) (2), [`NotAPointer`](Refusal::NotAPointer) (4).
    ///
    /// ```
    /// use dorrivand::{pointer, Refusal, Species, Store};
    ///
    /// let mut store = Store::with_segments(4)?;
    /// store.open_new(0, 0, Species::Bits32)?;
    /// assert_eq!(store.new_pointer(0, 0, pointer::BEGIN), Ok(3));
    /// store.delete_pointer(0, 0, 3)?;
    /// assert_eq!(store.delete_pointer(0, 0, 3), Err(Refusal::NotAPointer));
    /// assert_eq!(store.delete_pointer(0, 0, pointer::WORK), Err(Refusal::NotAPointer));
    /// # Ok::<(), Refusal>(())
    /// ```
    pub fn delete_pointer(&mut self, user: u32, entry: u32, pointer: u32) -> Result<(), Refusal> {
        without_number(door::delete(&self.cells, &mut self.tables, user, entry, pointer))
    }
}
