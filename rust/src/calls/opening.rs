//! Opening new files, and old ones for work or for reading.

use crate::answer::without_number;
use crate::door;
use crate::refusal::Refusal;
use crate::species::SpeciesNumber;
use crate::store::Store;

impl Store<'_> {
    /// Opens a new file: empty, of this species, named by the scratch name, with work permit. The work pointer stands at the
    /// begin, which is 1.
    ///
    /// # Errors
    ///
    /// [`UnsoundTables`](Refusal::UnsoundTables) (20), [`NoSuchUser`](Refusal::NoSuchUser) (1),
    /// [`EntryNotOpen`](Refusal::EntryNotOpen) (2) for an entry above 3, [`EntryOpen`](Refusal::EntryOpen) (3),
    /// [`NoSuchSpecies`](Refusal::NoSuchSpecies) (19) for a number above 6.
    ///
    /// ```
    /// use dorrivand::{Refusal, Species, Store};
    ///
    /// let mut store = Store::with_segments(4)?;
    /// store.open_new(0, 3, Species::Bits32)?;
    /// assert_eq!((store.begin(0, 3), store.end(0, 3)), (Ok(1), Ok(1)));
    /// assert_eq!(store.open_new(0, 3, Species::Bits32), Err(Refusal::EntryOpen));
    /// assert_eq!(store.open_new(0, 4, Species::Bits32), Err(Refusal::EntryNotOpen));
    /// assert_eq!(store.open_new(8, 0, Species::Bits32), Err(Refusal::NoSuchUser));
    /// assert_eq!(store.open_new(0, 0, 7), Err(Refusal::NoSuchSpecies));
    /// # Ok::<(), Refusal>(())
    /// ```
    pub fn open_new(&mut self, user: u32, entry: u32, species: impl SpeciesNumber) -> Result<(), Refusal> {
        without_number(door::new(&self.cells, &mut self.tables, user, entry, species.into()))
    }

    /// Opens a permanent file by name, with work permit: the user's own file of that name first, then a public one. The work
    /// pointer stands at the end: to read or change what is there already, [reset](Store::reset) first. What is changed becomes
    /// the file's at a close, and is nowhere after an [abandon](Store::abandon).
    ///
    /// # Errors
    ///
    /// [`UnsoundTables`](Refusal::UnsoundTables) (20), [`NoSuchUser`](Refusal::NoSuchUser) (1),
    /// [`EntryNotOpen`](Refusal::EntryNotOpen) (2) for an entry above 3, [`EntryOpen`](Refusal::EntryOpen) (3),
    /// [`EmptyName`](Refusal::EmptyName) (15), [`UnknownName`](Refusal::UnknownName) (11), for another's private file too,
    /// [`NoWorkOnAnothers`](Refusal::NoWorkOnAnothers) (13) for another's public file, [`NotNow`](Refusal::NotNow) (14) while
    /// the file is open at all.
    ///
    /// ```
    /// use dorrivand::{pointer, Refusal, Species, Store};
    ///
    /// let mut store = Store::with_segments(4)?;
    /// store.open_new(0, 0, Species::Bits32)?;
    /// store.write(0, 0, pointer::END, 10)?;
    /// store.rename(0, 0, "notice")?;
    /// store.close_public(0, 0)?;
    ///
    /// assert_eq!(store.open_work(1, 0, "notice"), Err(Refusal::NoWorkOnAnothers));
    /// store.open_work(0, 0, "notice")?;
    /// assert_eq!(store.write(0, 0, pointer::WORK, 11), Err(Refusal::BeyondEnd));
    /// store.reset(0, 0)?;
    /// store.write(0, 0, pointer::WORK, 11)?;
    /// assert_eq!(store.open_work(0, 1, "notice"), Err(Refusal::NotNow));
    /// assert_eq!(store.open_work(0, 1, "notices"), Err(Refusal::UnknownName));
    /// assert_eq!(store.open_work(0, 1, ""), Err(Refusal::EmptyName));
    /// # Ok::<(), Refusal>(())
    /// ```
    pub fn open_work(&mut self, user: u32, entry: u32, name: impl AsRef<[u8]>) -> Result<(), Refusal> {
        without_number(door::work(&self.cells, &mut self.tables, user, entry, name.as_ref()))
    }

    /// Opens a permanent file by name, for reading: the user's own file of that name first, then a public one. The work
    /// pointer stands at the begin.
    ///
    /// # Errors
    ///
    /// [`UnsoundTables`](Refusal::UnsoundTables) (20), [`NoSuchUser`](Refusal::NoSuchUser) (1),
    /// [`EntryNotOpen`](Refusal::EntryNotOpen) (2) for an entry above 3, [`EntryOpen`](Refusal::EntryOpen) (3),
    /// [`EmptyName`](Refusal::EmptyName) (15), [`UnknownName`](Refusal::UnknownName) (11), for another's private file too,
    /// [`NotNow`](Refusal::NotNow) (14) while the file is open for work.
    ///
    /// ```
    /// use dorrivand::{pointer, Refusal, Species, Store};
    ///
    /// let mut store = Store::with_segments(4)?;
    /// store.open_new(0, 0, Species::Bits32)?;
    /// store.write(0, 0, pointer::END, 10)?;
    /// store.rename(0, 0, "notice")?;
    /// store.close_public(0, 0)?;
    ///
    /// store.open_read(0, 0, "notice")?;
    /// store.open_read(7, 3, b" not ice")?;
    /// assert_eq!(store.next(7, 3, pointer::WORK), Ok(10));
    /// assert_eq!(store.write(7, 3, pointer::WORK, 11), Err(Refusal::NoWorkPermit));
    /// # Ok::<(), Refusal>(())
    /// ```
    pub fn open_read(&mut self, user: u32, entry: u32, name: impl AsRef<[u8]>) -> Result<(), Refusal> {
        without_number(door::read(&self.cells, &mut self.tables, user, entry, name.as_ref()))
    }
}
