//! A store of files: its cells and its tables, owned or lent.

use crate::cells::Cells;
use crate::refusal::Refusal;
use crate::version::check_library;
use std::fmt;

/// "a segment is 4 blocks, 64 cells."
const SEGMENT_CELLS: usize = 64;

/// "floor(length / 64) segments, at most 1,024".
const MOST_SEGMENTS: usize = 1024;

/// A store of files: the cells that hold the elements, and the tables that say what the cells mean.
///
/// It owns both ([`Store::with_segments`], [`Store::from_cells`]) or works on slices that it is lent ([`Store::over`]).
/// Nothing is hidden beside the cells: a store over the same cells and tables is the same store.
pub struct Store<'a> {
    pub(crate) cells: Cells<'a>,
    pub(crate) tables: Cells<'a>,
}

impl Store<'static> {
    /// A store of so many segments of 64 cells, freshly started: no files, nothing open. It gets at most 1,024.
    ///
    /// # Errors
    ///
    /// [`UnsoundTables`](Refusal::UnsoundTables) (20) for 0 segments.
    ///
    /// ```
    /// use dorrivand::{Refusal, Store};
    ///
    /// let store = Store::with_segments(128)?;
    /// assert_eq!(store.free_segments(0), Ok(128));
    /// assert_eq!(store.cells().len(), 128 * 64);
    /// assert_eq!(Store::with_segments(2000)?.free_segments(0), Ok(1024));
    /// assert_eq!(Store::with_segments(0).err(), Some(Refusal::UnsoundTables));
    /// # Ok::<(), Refusal>(())
    /// ```
    pub fn with_segments(segments: usize) -> Result<Store<'static>, Refusal> {
        let cells = vec![0; SEGMENT_CELLS * segments.min(MOST_SEGMENTS)];
        let mut store = Store::from_cells(cells, vec![0; crate::tables_length()]);
        store.fresh_start()?;
        Ok(store)
    }

    /// A store that takes over cells and tables as they are. Nothing is looked at here: where the tables are of
    /// the wrong length or unsound, or the store is too short for them, the calls say so.
    ///
    /// ```
    /// use dorrivand::{Refusal, Store};
    ///
    /// let kept = Store::with_segments(3)?;
    /// let (cells, tables) = (kept.cells().to_vec(), kept.tables().to_vec());
    ///
    /// assert_eq!(Store::from_cells(cells, tables).free_segments(0), Ok(3));
    /// assert_eq!(Store::from_cells(vec![0; 640], vec![]).free_segments(0), Err(Refusal::UnsoundTables));
    /// # Ok::<(), Refusal>(())
    /// ```
    #[must_use]
    pub fn from_cells(cells: Vec<u32>, tables: Vec<u32>) -> Store<'static> {
        check_library();
        Store { cells: Cells::Owned(cells), tables: Cells::Owned(tables) }
    }
}

impl<'a> Store<'a> {
    /// A store over lent cells and tables, as they are. Nothing is looked at here: where the tables are of the wrong
    /// length or unsound, or the store is too short for them, the calls say so.
    ///
    /// ```
    /// use dorrivand::{pointer, Refusal, Species, Store};
    ///
    /// let mut cells = [0; 640];
    /// let mut tables = vec![0; dorrivand::tables_length()];
    ///
    /// let mut store = Store::over(&mut cells, &mut tables);
    /// assert_eq!(store.free_segments(0), Err(Refusal::UnsoundTables));
    /// store.fresh_start()?;
    /// store.open_new(0, 0, Species::Bits32)?;
    /// store.write(0, 0, pointer::END, 77)?;
    ///
    /// assert_eq!(cells[0], 77);
    /// # Ok::<(), Refusal>(())
    /// ```
    ///
    /// The two slices cannot overlap:
    ///
    /// ```compile_fail,E0499
    /// let mut cells = vec![0; 10_000];
    /// let store = dorrivand::Store::over(&mut cells[..5_000], &mut cells[4_000..]);
    /// store.free_segments(0);
    /// ```
    #[must_use]
    pub fn over(cells: &'a mut [u32], tables: &'a mut [u32]) -> Store<'a> {
        check_library();
        Store { cells: Cells::Lent(cells), tables: Cells::Lent(tables) }
    }

    /// The store's cells.
    ///
    /// ```
    /// use dorrivand::{pointer, Species, Store};
    ///
    /// let mut store = Store::with_segments(1)?;
    /// store.open_new(0, 0, Species::Bits4)?;
    /// for number in [0, 0, 0, 0, 0, 0, 0, 0, 0, 10] {
    ///     store.write(0, 0, pointer::END, number)?;
    /// }
    /// assert_eq!(store.cells()[1], 0x0A00_0000);
    /// # Ok::<(), dorrivand::Refusal>(())
    /// ```
    #[must_use]
    pub fn cells(&self) -> &[u32] {
        &self.cells
    }

    /// The store's cells, to be written to. Files have the elements that their cells hold.
    ///
    /// ```
    /// use dorrivand::{pointer, Species, Store};
    ///
    /// let mut store = Store::with_segments(1)?;
    /// store.open_new(0, 0, Species::Bits32)?;
    /// store.write(0, 0, pointer::END, 10)?;
    /// store.cells_mut()[0] = 11;
    /// assert_eq!(store.next(0, 0, pointer::WORK), Ok(11));
    /// # Ok::<(), dorrivand::Refusal>(())
    /// ```
    #[must_use]
    pub fn cells_mut(&mut self) -> &mut [u32] {
        &mut self.cells
    }

    /// The tables' cells.
    ///
    /// ```
    /// let store = dorrivand::Store::with_segments(128)?;
    /// assert_eq!(store.tables().len(), dorrivand::tables_length());
    /// assert_eq!(store.tables()[0], 128);
    /// # Ok::<(), dorrivand::Refusal>(())
    /// ```
    #[must_use]
    pub fn tables(&self) -> &[u32] {
        &self.tables
    }

    /// The tables' cells, to be written to. Whatever is written, every call stays defined: while the tables are
    /// unsound, all but a fresh start and a load are refused.
    ///
    /// ```
    /// use dorrivand::{Refusal, Store};
    ///
    /// let mut store = Store::with_segments(128)?;
    /// store.tables_mut()[0] = 129;
    /// assert_eq!(store.free_segments(0), Err(Refusal::UnsoundTables));
    /// # Ok::<(), Refusal>(())
    /// ```
    #[must_use]
    pub fn tables_mut(&mut self) -> &mut [u32] {
        &mut self.tables
    }

    /// The cells and the tables themselves where the store owns them; copies of them where they are lent.
    ///
    /// ```
    /// use dorrivand::Store;
    ///
    /// let (cells, tables) = Store::with_segments(3)?.into_cells();
    /// assert_eq!(cells.len(), 192);
    /// assert_eq!(Store::from_cells(cells, tables).free_segments(0), Ok(3));
    /// # Ok::<(), dorrivand::Refusal>(())
    /// ```
    #[must_use]
    pub fn into_cells(self) -> (Vec<u32>, Vec<u32>) {
        (self.cells.into_owned(), self.tables.into_owned())
    }
}

/// The lengths alone: the cells would fill pages.
impl fmt::Debug for Store<'_> {
    fn fmt(&self, formatter: &mut fmt::Formatter<'_>) -> fmt::Result {
        let mut lengths = formatter.debug_struct("Store");
        lengths.field("cells", &self.cells.len()).field("tables", &self.tables.len()).finish_non_exhaustive()
    }
}
