//! "Fresh start, save and load name no user; they are the operator's, and none of them changes a store cell." Tidying is the
//! operator's too, and does change store cells.

use crate::answer::without_number;
use crate::door;
use crate::refusal::Refusal;
use crate::store::Store;

impl Store<'_> {
    /// Starts afresh: no files, nothing open, and one segment for every 64 cells of the store, at most 1,024. It does not look
    /// at what the tables held.
    ///
    /// # Errors
    ///
    /// [`UnsoundTables`](Refusal::UnsoundTables) (20), for the lengths alone.
    ///
    /// ```
    /// use dorrivand::{Refusal, Store};
    ///
    /// let tables = vec![12345; dorrivand::tables_length()];
    /// let mut store = Store::from_cells(vec![0; 200], tables);
    /// store.fresh_start()?;
    /// assert_eq!(store.free_segments(0), Ok(3));
    ///
    /// let mut too_short = Store::from_cells(vec![0; 63], vec![0; dorrivand::tables_length()]);
    /// assert_eq!(too_short.fresh_start(), Err(Refusal::UnsoundTables));
    /// # Ok::<(), Refusal>(())
    /// ```
    pub fn fresh_start(&mut self) -> Result<(), Refusal> {
        without_number(door::fresh(&self.cells, &mut self.tables))
    }

    /// Writes the permanent files' records to an image of [`image_length`](crate::image_length) cells, whatever is open.
    /// The elements stay in the store's cells and are not in the image: it is a backup only together with the
    /// [cells](Store::cells) of the same moment.
    ///
    /// # Errors
    ///
    /// [`UnsoundTables`](Refusal::UnsoundTables) (20), then [`UnsoundImage`](Refusal::UnsoundImage) (22), for
    /// the image's length alone.
    ///
    /// ```
    /// use dorrivand::{Refusal, Store};
    ///
    /// let store = Store::with_segments(128)?;
    /// let mut image = vec![7; dorrivand::image_length()];
    /// store.save(&mut image)?;
    /// assert_eq!(image[0], 0x0210_0000);
    /// assert!(image[1..].iter().all(|&cell| cell == 0));
    /// assert_eq!(store.save(&mut [0; 10]), Err(Refusal::UnsoundImage));
    /// # Ok::<(), Refusal>(())
    /// ```
    pub fn save(&self, image: &mut [u32]) -> Result<(), Refusal> {
        without_number(door::save(&self.cells, &self.tables, image))
    }

    /// Takes the records and the number of segments from an image; nothing is open afterwards. It does not look at
    /// what the tables held. The elements are those that the store's cells hold now.
    ///
    /// An image that a library before version 7 saved is refused until it is [moved up](crate::forms::up); tables that such a
    /// library left are good as they are.
    ///
    /// # Errors
    ///
    /// [`UnsoundTables`](Refusal::UnsoundTables) (20), for the lengths alone, then
    /// [`UnsoundImage`](Refusal::UnsoundImage) (22).
    ///
    /// ```
    /// use dorrivand::{pointer, Refusal, Species, Store};
    ///
    /// let mut store = Store::with_segments(128)?;
    /// store.open_new(2, 0, Species::Bits32)?;
    /// store.write(2, 0, pointer::END, 77)?;
    /// store.rename(2, 0, "a")?;
    /// store.close_private(2, 0)?;
    /// let mut image = vec![0; dorrivand::image_length()];
    /// store.save(&mut image)?;
    ///
    /// store.fresh_start()?;
    /// assert_eq!(store.open_read(2, 0, "a"), Err(Refusal::UnknownName));
    /// store.load(&image)?;
    /// store.open_read(2, 0, "a")?;
    /// assert_eq!(store.next(2, 0, pointer::WORK), Ok(77));
    ///
    /// // Form 2, in the first eight bits, becomes form 1.
    /// image[0] ^= 0x0300_0000;
    /// assert_eq!(store.load(&image), Err(Refusal::UnsoundImage));
    /// # Ok::<(), Refusal>(())
    /// ```
    ///
    /// Over cells of another moment the load is done all the same, and a file reads what its segments hold by now:
    ///
    /// ```
    /// use dorrivand::{pointer, Refusal, Species, Store};
    ///
    /// fn make(store: &mut Store, user: u32, name: &str, element: u32) -> Result<(), Refusal> {
    ///     store.open_new(user, 0, Species::Bits32)?;
    ///     store.write(user, 0, pointer::END, element)?;
    ///     store.rename(user, 0, name)?;
    ///     store.close_private(user, 0)
    /// }
    ///
    /// let mut store = Store::with_segments(4)?;
    /// make(&mut store, 2, "lift 7", 301)?;
    /// let mut image = vec![0; dorrivand::image_length()];
    /// store.save(&mut image)?;
    /// let cells = store.cells().to_vec();
    ///
    /// // Lift 7 is deleted, and a neighbour's private file takes its segment.
    /// store.open_work(2, 0, "lift 7")?;
    /// store.rename(2, 0, "")?;
    /// store.close_private(2, 0)?;
    /// make(&mut store, 3, "secret", 99)?;
    ///
    /// store.load(&image)?;
    /// store.open_read(2, 0, "lift 7")?;
    /// assert_eq!(store.next(2, 0, pointer::WORK), Ok(99));
    ///
    /// // With the cells of the moment of the save it is right.
    /// store.cells_mut().copy_from_slice(&cells);
    /// store.load(&image)?;
    /// store.open_read(2, 0, "lift 7")?;
    /// assert_eq!(store.next(2, 0, pointer::WORK), Ok(301));
    /// # Ok::<(), Refusal>(())
    /// ```
    pub fn load(&mut self, image: &[u32]) -> Result<(), Refusal> {
        without_number(door::load(&self.cells, &mut self.tables, image))
    }

    /// Brings the permanent files' segments together at the begin of the store, and tells how many cells it copied. H being how
    /// many segments are listed, the listed ones numbered H or above, in rising order, go to the free ones below H, in rising
    /// order; no other moves. Every file reads the same, and the [cells](Store::cells) beyond the first 64 * H hold none.
    ///
    /// Segments left behind keep their cells. An image saved just before names them: over these cells it is good until one of
    /// them is written to again. An older one may name a segment that was free since and is written over here. So
    /// [save](Store::save) after tidying.
    ///
    /// # Errors
    ///
    /// [`UnsoundTables`](Refusal::UnsoundTables) (20), [`NotNow`](Refusal::NotNow) (14) while anything at all is open, a file
    /// that is only read and a new one without elements too.
    ///
    /// ```
    /// use dorrivand::{pointer, Refusal, Species, Store};
    ///
    /// let mut store = Store::with_segments(4)?;
    /// for (name, fault) in [("lift 7", 301), ("lift 8", 417)] {
    ///     store.open_new(2, 0, Species::Bits32)?;
    ///     store.write(2, 0, pointer::END, fault)?;
    ///     store.rename(2, 0, name)?;
    ///     store.close_private(2, 0)?;
    /// }
    ///
    /// // Lift 7 is deleted, and its segment is free: lift 8 lies in the one after it.
    /// store.open_work(2, 0, "lift 7")?;
    /// store.rename(2, 0, "")?;
    /// assert_eq!(store.tidy(), Err(Refusal::NotNow));
    /// store.close_private(2, 0)?;
    ///
    /// assert_eq!(store.tidy(), Ok(64));
    /// assert_eq!(store.cells()[0], 417);
    /// assert_eq!(store.tidy(), Ok(0));
    /// store.open_read(2, 0, "lift 8")?;
    /// assert_eq!(store.next(2, 0, pointer::WORK), Ok(417));
    /// # Ok::<(), Refusal>(())
    /// ```
    pub fn tidy(&mut self) -> Result<u32, Refusal> {
        door::tidy(&mut self.cells, &mut self.tables)
    }
}
