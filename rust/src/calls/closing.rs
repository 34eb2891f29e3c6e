//! Renaming, closing and abandoning an open file.

use crate::answer::without_number;
use crate::door;
use crate::refusal::Refusal;
use crate::store::Store;

impl Store<'_> {
    /// Changes the name of the opening only; the file gets it at a close. Of the bytes the file keeps
    /// [what makes a name](crate#names), which may be none; a [`Name`](crate::Name) is kept as it is.
    ///
    /// # Errors
    ///
    /// [`UnsoundTables`](Refusal::UnsoundTables) (20), [`NoSuchUser`](Refusal::NoSuchUser) (1),
    /// [`EntryNotOpen`](Refusal::EntryNotOpen) (2), [`NoWorkPermit`](Refusal::NoWorkPermit) (5).
    ///
    /// ```
    /// use dorrivand::{Species, Store};
    ///
    /// let mut store = Store::with_segments(4)?;
    /// store.open_new(0, 0, Species::Bits32)?;
    /// store.rename(0, 0, "lift 7")?;
    /// assert_eq!(store.symbol(0, 0, 4), Ok(7));
    /// # Ok::<(), dorrivand::Refusal>(())
    /// ```
    pub fn rename(&mut self, user: u32, entry: u32, name: impl AsRef<[u8]>) -> Result<(), Refusal> {
        without_number(door::rename(&self.cells, &mut self.tables, user, entry, name.as_ref()))
    }

    /// Closes the file as a private one, which nobody else can open.
    ///
    /// A read opening ends. A new file with the scratch name vanishes. An old one renamed to the scratch name is deleted.
    /// Otherwise the file becomes permanent as it is now, in the place of what it was before.
    ///
    /// # Errors
    ///
    /// [`UnsoundTables`](Refusal::UnsoundTables) (20), [`NoSuchUser`](Refusal::NoSuchUser) (1),
    /// [`EntryNotOpen`](Refusal::EntryNotOpen) (2), [`NameTaken`](Refusal::NameTaken) (16) where a record would be written and
    /// the user has another one of that name, [`NoFreePlace`](Refusal::NoFreePlace) (17) where a new file would be the 65th.
    ///
    /// ```
    /// use dorrivand::{Refusal, Species, Store};
    ///
    /// let mut store = Store::with_segments(4)?;
    /// store.open_new(0, 0, Species::Bits32)?;
    /// store.rename(0, 0, "a")?;
    /// store.close_private(0, 0)?;
    /// assert_eq!(store.open_read(1, 0, "a"), Err(Refusal::UnknownName));
    ///
    /// // Renamed to the scratch name and closed: deleted.
    /// store.open_work(0, 0, "a")?;
    /// store.rename(0, 0, "")?;
    /// store.close_private(0, 0)?;
    /// assert_eq!(store.open_read(0, 0, "a"), Err(Refusal::UnknownName));
    /// # Ok::<(), Refusal>(())
    /// ```
    pub fn close_private(&mut self, user: u32, entry: u32) -> Result<(), Refusal> {
        without_number(door::close(&self.cells, &mut self.tables, user, entry))
    }

    /// Closes the file as a public one, which everyone may read: it becomes permanent as it is now, in the place of what it was
    /// before.
    ///
    /// # Errors
    ///
    /// [`UnsoundTables`](Refusal::UnsoundTables) (20), [`NoSuchUser`](Refusal::NoSuchUser) (1),
    /// [`EntryNotOpen`](Refusal::EntryNotOpen) (2), [`NotToBePublic`](Refusal::NotToBePublic) (18) for a read opening and
    /// for the scratch name, [`NameTaken`](Refusal::NameTaken) (16) where the user has another file of that name or anyone another
    /// public one, [`NoFreePlace`](Refusal::NoFreePlace) (17) where a new file would be the 65th.
    ///
    /// ```
    /// use dorrivand::{Refusal, Species, Store};
    ///
    /// let mut store = Store::with_segments(4)?;
    /// for user in [0, 1] {
    ///     store.open_new(user, 0, Species::Bits32)?;
    ///     store.rename(user, 0, "notice")?;
    /// }
    /// store.close_public(0, 0)?;
    /// assert_eq!(store.close_public(1, 0), Err(Refusal::NameTaken));
    /// store.close_private(1, 0)?;
    /// # Ok::<(), Refusal>(())
    /// ```
    pub fn close_public(&mut self, user: u32, entry: u32) -> Result<(), Refusal> {
        without_number(door::public(&self.cells, &mut self.tables, user, entry))
    }

    /// Gives the opening up: it ends, and the permanent file, if there is one, is as it was.
    ///
    /// # Errors
    ///
    /// [`UnsoundTables`](Refusal::UnsoundTables) (20), [`NoSuchUser`](Refusal::NoSuchUser) (1),
    /// [`EntryNotOpen`](Refusal::EntryNotOpen) (2).
    ///
    /// ```
    /// use dorrivand::{pointer, Species, Store};
    ///
    /// let mut store = Store::with_segments(4)?;
    /// store.open_new(0, 0, Species::Bits32)?;
    /// store.write(0, 0, pointer::END, 10)?;
    /// store.write(0, 0, pointer::END, 20)?;
    /// store.rename(0, 0, "a")?;
    /// store.close_private(0, 0)?;
    ///
    /// store.open_work(0, 0, "a")?;
    /// assert_eq!(store.prev(0, 0, pointer::END), Ok(20));
    /// store.write(0, 0, pointer::END, 99)?;
    /// store.abandon(0, 0)?;
    ///
    /// store.open_read(0, 0, "a")?;
    /// assert_eq!((store.next(0, 0, pointer::WORK), store.next(0, 0, pointer::WORK)), (Ok(10), Ok(20)));
    /// # Ok::<(), dorrivand::Refusal>(())
    /// ```
    pub fn abandon(&mut self, user: u32, entry: u32) -> Result<(), Refusal> {
        without_number(door::abandon(&self.cells, &mut self.tables, user, entry))
    }
}
