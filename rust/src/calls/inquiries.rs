//! What can be asked of an open file, and the number of free segments.

use crate::answer::{species, yes_or_no};
use crate::door;
use crate::refusal::Refusal;
use crate::species::Species;
use crate::store::Store;

impl Store<'_> {
    /// The number of free segments: those that no permanent file and no opening lists.
    ///
    /// # Errors
    ///
    /// [`UnsoundTables`](Refusal::UnsoundTables) (20), [`NoSuchUser`](Refusal::NoSuchUser) (1).
    ///
    /// ```
    /// use dorrivand::{pointer, Refusal, Species, Store};
    ///
    /// let mut store = Store::with_segments(4)?;
    /// store.open_new(0, 0, Species::Bits32)?;
    /// store.write(0, 0, pointer::END, 10)?;
    /// assert_eq!(store.free_segments(7), Ok(3));
    /// assert_eq!(store.free_segments(8), Err(Refusal::NoSuchUser));
    /// # Ok::<(), Refusal>(())
    /// ```
    pub fn free_segments(&self, user: u32) -> Result<u32, Refusal> {
        door::free(&self.cells, &self.tables, user)
    }

    /// The species.
    ///
    /// # Errors
    ///
    /// [`UnsoundTables`](Refusal::UnsoundTables) (20), [`NoSuchUser`](Refusal::NoSuchUser) (1),
    /// [`EntryNotOpen`](Refusal::EntryNotOpen) (2).
    ///
    /// ```
    /// use dorrivand::{Refusal, Species, Store};
    ///
    /// let mut store = Store::with_segments(4)?;
    /// store.open_new(0, 0, Species::Bits16)?;
    /// assert_eq!(store.species(0, 0), Ok(Species::Bits16));
    /// assert_eq!(store.species(0, 1), Err(Refusal::EntryNotOpen));
    /// # Ok::<(), Refusal>(())
    /// ```
    pub fn species(&self, user: u32, entry: u32) -> Result<Species, Refusal> {
        species(door::species(&self.cells, &self.tables, user, entry))
    }

    /// The number of positions from the begin to the end of the last stretch that the file holds a segment for, 0 for an
    /// empty file. The last stretch of all ends beyond 4,294,967,295, the greatest end value, and is counted whole.
    ///
    /// # Errors
    ///
    /// [`UnsoundTables`](Refusal::UnsoundTables) (20), [`NoSuchUser`](Refusal::NoSuchUser) (1),
    /// [`EntryNotOpen`](Refusal::EntryNotOpen) (2).
    ///
    /// ```
    /// use dorrivand::{pointer, Species, Store};
    ///
    /// let mut store = Store::with_segments(4)?;
    /// store.open_new(0, 0, Species::Bits32)?;
    /// assert_eq!(store.claim(0, 0), Ok(0));
    /// store.write(0, 0, pointer::END, 10)?;
    /// assert_eq!(store.claim(0, 0), Ok(64));
    /// # Ok::<(), dorrivand::Refusal>(())
    /// ```
    pub fn claim(&self, user: u32, entry: u32) -> Result<u32, Refusal> {
        door::claim(&self.cells, &self.tables, user, entry)
    }

    /// Whether the opening has the work permit.
    ///
    /// # Errors
    ///
    /// [`UnsoundTables`](Refusal::UnsoundTables) (20), [`NoSuchUser`](Refusal::NoSuchUser) (1),
    /// [`EntryNotOpen`](Refusal::EntryNotOpen) (2).
    ///
    /// ```
    /// use dorrivand::{Species, Store};
    ///
    /// let mut store = Store::with_segments(4)?;
    /// store.open_new(0, 0, Species::Bits32)?;
    /// store.rename(0, 0, "a")?;
    /// assert_eq!(store.permit(0, 0), Ok(true));
    /// store.close_private(0, 0)?;
    /// store.open_read(0, 0, "a")?;
    /// assert_eq!(store.permit(0, 0), Ok(false));
    /// # Ok::<(), dorrivand::Refusal>(())
    /// ```
    pub fn permit(&self, user: u32, entry: u32) -> Result<bool, Refusal> {
        yes_or_no(door::permit(&self.cells, &self.tables, user, entry))
    }

    /// Symbol `k` of the opening's name, `k` from 0: 0 to 35 for `0` to `9` and `a` to `z`, 63 after the last one.
    ///
    /// # Errors
    ///
    /// [`UnsoundTables`](Refusal::UnsoundTables) (20), [`NoSuchUser`](Refusal::NoSuchUser) (1),
    /// [`EntryNotOpen`](Refusal::EntryNotOpen) (2).
    ///
    /// ```
    /// use dorrivand::{Species, Store};
    ///
    /// let mut store = Store::with_segments(4)?;
    /// store.open_new(0, 0, Species::Bits32)?;
    /// store.rename(0, 0, "lift 7")?;
    /// let symbols: Result<Vec<u32>, _> = (0..7).map(|k| store.symbol(0, 0, k)).collect();
    /// assert_eq!(symbols?, [21, 18, 15, 29, 7, 63, 63]);
    /// # Ok::<(), dorrivand::Refusal>(())
    /// ```
    pub fn symbol(&self, user: u32, entry: u32, k: u32) -> Result<u32, Refusal> {
        door::symbol(&self.cells, &self.tables, user, entry, k)
    }

    /// The begin value: the first position of the file.
    ///
    /// # Errors
    ///
    /// [`UnsoundTables`](Refusal::UnsoundTables) (20), [`NoSuchUser`](Refusal::NoSuchUser) (1),
    /// [`EntryNotOpen`](Refusal::EntryNotOpen) (2).
    ///
    /// ```
    /// use dorrivand::{Species, Store};
    ///
    /// let mut store = Store::with_segments(4)?;
    /// store.open_new(0, 0, Species::Bits32)?;
    /// assert_eq!(store.begin(0, 0), Ok(1));
    /// # Ok::<(), dorrivand::Refusal>(())
    /// ```
    pub fn begin(&self, user: u32, entry: u32) -> Result<u32, Refusal> {
        door::begin(&self.cells, &self.tables, user, entry)
    }

    /// The end value: the position after the last one of the file.
    ///
    /// # Errors
    ///
    /// [`UnsoundTables`](Refusal::UnsoundTables) (20), [`NoSuchUser`](Refusal::NoSuchUser) (1),
    /// [`EntryNotOpen`](Refusal::EntryNotOpen) (2).
    ///
    /// ```
    /// use dorrivand::{pointer, Species, Store};
    ///
    /// let mut store = Store::with_segments(4)?;
    /// store.open_new(0, 0, Species::Bits32)?;
    /// store.write(0, 0, pointer::END, 10)?;
    /// assert_eq!(store.end(0, 0), Ok(2));
    /// # Ok::<(), dorrivand::Refusal>(())
    /// ```
    pub fn end(&self, user: u32, entry: u32) -> Result<u32, Refusal> {
        door::end(&self.cells, &self.tables, user, entry)
    }

    /// The value of a pointer: the position where it stands.
    ///
    /// # Errors
    ///
    /// [`UnsoundTables`](Refusal::UnsoundTables) (20), [`NoSuchUser`](Refusal::NoSuchUser) (1),
    /// [`EntryNotOpen`](Refusal::EntryNotOpen) (2), [`NotAPointer`](Refusal::NotAPointer) (4).
    ///
    /// ```
    /// use dorrivand::{pointer, Refusal, Species, Store};
    ///
    /// let mut store = Store::with_segments(4)?;
    /// store.open_new(0, 0, Species::Bits32)?;
    /// assert_eq!(store.value(0, 0, pointer::WORK), Ok(1));
    /// assert_eq!(store.value(0, 0, 3), Err(Refusal::NotAPointer));
    /// # Ok::<(), Refusal>(())
    /// ```
    pub fn value(&self, user: u32, entry: u32, pointer: u32) -> Result<u32, Refusal> {
        door::value(&self.cells, &self.tables, user, entry, pointer)
    }
}
