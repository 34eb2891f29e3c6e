//! Runs of elements: a list written through one pointer, a list filled through one.

use crate::answer::{elements_of, stop};
use crate::door;
use crate::refusal::Refusal;
use crate::store::Store;

/// What a run's place holds before the call: no stop, so that a library that left it would be found out.
const UNTOLD: u32 = u32::MAX;

impl Store<'_> {
    /// Writes the elements of a list in their order through a pointer, each as by [`write`](Store::write), up to the first
    /// that is refused. It hands back the unwritten rest of the list, and what stopped the run, if anything did. The
    /// outcome is that of the single calls, those before the refused one included, but the tables are judged once.
    ///
    /// # Errors
    ///
    /// A run is stopped by [`UnsoundTables`](Refusal::UnsoundTables) (20), [`NoSuchUser`](Refusal::NoSuchUser) (1),
    /// [`EntryNotOpen`](Refusal::EntryNotOpen) (2), [`NoSuchSpecies`](Refusal::NoSuchSpecies) (19) for signed elements,
    /// [`NotAPointer`](Refusal::NotAPointer) (4), [`NoWorkPermit`](Refusal::NoWorkPermit) (5),
    /// [`BelowBegin`](Refusal::BelowBegin) (6), [`BeyondEnd`](Refusal::BeyondEnd) (7) but not through the end,
    /// [`TooWide`](Refusal::TooWide) (23), [`PositionsUsedUp`](Refusal::PositionsUsedUp) (10),
    /// [`TooManySegments`](Refusal::TooManySegments) (8), [`NoRoom`](Refusal::NoRoom) (9). An empty list asks for no element, and
    /// gets none of those after `NoWorkPermit`.
    ///
    /// ```
    /// use dorrivand::{pointer, Refusal, Species, Store};
    ///
    /// let mut store = Store::with_segments(1)?;
    /// store.open_new(0, 0, Species::Bits32)?;
    /// let readings: Vec<u32> = (200..240).collect();
    /// assert_eq!(store.write_run(0, 0, pointer::END, &readings), (&[][..], None));
    ///
    /// // The segment has room for 24 more.
    /// let (rest, stop) = store.write_run(0, 0, pointer::END, &readings);
    /// assert_eq!((rest, stop), (&readings[24..], Some(Refusal::NoRoom)));
    ///
    /// // The rest is a part of the caller's own list, and goes where there is room for it.
    /// let mut another = Store::with_segments(1)?;
    /// another.open_new(0, 0, Species::Bits32)?;
    /// assert_eq!(another.write_run(0, 0, pointer::END, rest), (&[][..], None));
    /// assert_eq!(another.end(0, 0), Ok(17));
    /// # Ok::<(), Refusal>(())
    /// ```
    #[must_use = "a run may have been stopped"]
    pub fn write_run<'l>(
        &mut self,
        user: u32,
        entry: u32,
        pointer: u32,
        list: &'l [u32],
    ) -> (&'l [u32], Option<Refusal>) {
        let mut place = UNTOLD;
        let unwritten = door::write_run(&mut self.cells, &mut self.tables, user, entry, pointer, list, &mut place);
        (&list[list.len() - elements_of(list, unwritten)..], stop(place))
    }

    /// Fills a list in its order with what [`next`](Store::next) delivers through a pointer, up to the first that is
    /// refused. It tells how many it filled, and what stopped the run, if anything did; places that it did not reach stay as
    /// they were. The outcome is that of the single calls, but the tables are judged once.
    ///
    /// # Errors
    ///
    /// A run is stopped by [`UnsoundTables`](Refusal::UnsoundTables) (20), [`NoSuchUser`](Refusal::NoSuchUser) (1),
    /// [`EntryNotOpen`](Refusal::EntryNotOpen) (2), [`NoSuchSpecies`](Refusal::NoSuchSpecies) (19) for signed elements,
    /// [`NotAPointer`](Refusal::NotAPointer) (4), [`NoWorkPermit`](Refusal::NoWorkPermit) (5) through the begin,
    /// [`BelowBegin`](Refusal::BelowBegin) (6), [`BeyondEnd`](Refusal::BeyondEnd) (7). An empty list asks for no element, and gets
    /// none of those after `NoWorkPermit`.
    ///
    /// ```
    /// use dorrivand::{pointer, Refusal, Species, Store};
    ///
    /// let mut store = Store::with_segments(1)?;
    /// store.open_new(0, 0, Species::Bits16)?;
    /// assert_eq!(store.write_run(0, 0, pointer::END, &[301, 417, 208]), (&[][..], None));
    ///
    /// let mut faults = [0; 2];
    /// assert_eq!(store.fill_run(0, 0, pointer::WORK, &mut faults), (2, None));
    /// assert_eq!(faults, [301, 417]);
    /// assert_eq!(store.fill_run(0, 0, pointer::WORK, &mut faults), (1, Some(Refusal::BeyondEnd)));
    /// assert_eq!(faults, [208, 417]);
    /// # Ok::<(), Refusal>(())
    /// ```
    #[must_use = "a run may have been stopped"]
    pub fn fill_run(&mut self, user: u32, entry: u32, pointer: u32, list: &mut [u32]) -> (usize, Option<Refusal>) {
        let mut place = UNTOLD;
        let filled = door::fill_run(&self.cells, &mut self.tables, user, entry, pointer, list, &mut place);
        (elements_of(list, filled), stop(place))
    }
}
