//! The elements of an open file, one after the other.

use crate::refusal::Refusal;
use crate::store::Store;
use std::iter::FusedIterator;

/// The elements of an open file, from where a pointer stands: see [`Store::elements`].
#[derive(Debug)]
#[must_use = "an element is read when it is asked for"]
pub struct Elements<'store, 'cells> {
    store: &'store mut Store<'cells>,
    user: u32,
    entry: u32,
    pointer: u32,
    ended: bool,
}

impl<'cells> Store<'cells> {
    /// The elements of an open file, from where the pointer stands, each read by [`next`](Store::next): the pointer moves
    /// on with them, and through the [begin](crate::pointer::BEGIN) they leave the file. Beyond the end there are no more; another refusal
    /// is given once, and is the last. Signed elements are refused, as by `next`.
    ///
    /// ```
    /// use dorrivand::{pointer, Refusal, Species, Store};
    ///
    /// let mut store = Store::with_segments(4)?;
    /// store.open_new(0, 0, Species::Bits16)?;
    /// for fault in [301, 417, 208] {
    ///     store.write(0, 0, pointer::END, fault)?;
    /// }
    /// let faults: Vec<u32> = store.elements(0, 0, pointer::WORK).collect::<Result<_, _>>()?;
    /// assert_eq!(faults, [301, 417, 208]);
    ///
    /// // An own pointer reads from the begin again, and leaves the work pointer where it stands.
    /// let own = store.new_pointer(0, 0, pointer::BEGIN)?;
    /// for (fault, again) in faults.into_iter().zip(store.elements(0, 0, own)) {
    ///     assert_eq!(again, Ok(fault));
    /// }
    ///
    /// let mut not_open = store.elements(0, 1, pointer::WORK);
    /// assert_eq!(not_open.next(), Some(Err(Refusal::EntryNotOpen)));
    /// assert_eq!(not_open.next(), None);
    /// # Ok::<(), Refusal>(())
    /// ```
    pub fn elements(&mut self, user: u32, entry: u32, pointer: u32) -> Elements<'_, 'cells> {
        Elements { store: self, user, entry, pointer, ended: false }
    }
}

impl Iterator for Elements<'_, '_> {
    type Item = Result<u32, Refusal>;

    fn next(&mut self) -> Option<Result<u32, Refusal>> {
        if self.ended {
            return None;
        }
        let element = self.store.next(self.user, self.entry, self.pointer);
        self.ended = element.is_err();
        match element {
            Err(Refusal::BeyondEnd) => None,
            element => Some(element),
        }
    }
}

impl FusedIterator for Elements<'_, '_> {}
