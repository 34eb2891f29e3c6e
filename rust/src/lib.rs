//! A safe door to Dorrivand, a file module for eight landlords who keep their lifts' fault records in one block store.
//!
//! The module divides a row of 32-bit cells, the store, into files, and keeps the book on them in a second row, the
//! tables. It is proved: whatever numbers it is given and whatever the cells hold, a call ends, does nothing undefined, and has
//! exactly one outcome. A refused call has changed nothing.
//!
//! There are users 0 to 7, each with entries 0 to 3 at which one file at a time is open. A file has elements of one
//! width, its [`Species`], and is read and written through its [pointers](mod@pointer).
//!
//! ```
//! use dorrivand::{pointer, Refusal, Species, Store};
//!
//! # fn main() -> Result<(), Refusal> {
//! let mut store = Store::with_segments(16)?;
//!
//! // User 2 makes a file of two 16-bit elements and keeps it private.
//! store.open_new(2, 0, Species::Bits16)?;
//! store.write(2, 0, pointer::END, 301)?;
//! store.write(2, 0, pointer::END, 417)?;
//! store.rename(2, 0, "lift 7")?;
//! store.close_private(2, 0)?;
//!
//! // It can be read again, by its owner and nobody else: to others it looks absent.
//! store.open_read(2, 0, "lift 7")?;
//! let faults: Vec<u32> = store.elements(2, 0, pointer::WORK).collect::<Result<_, _>>()?;
//! assert_eq!(faults, [301, 417]);
//! assert_eq!(store.open_read(3, 0, "lift 7"), Err(Refusal::UnknownName));
//! # Ok(())
//! # }
//! ```
//!
//! # Numbers
//!
//! No number is cut: one that is too wide for the file's species is refused. Degrees below zero are elements of
//! [`Species::Signed16`], which has calls of its own, that take and give signed numbers: [`Store::write_signed`],
//! [`Store::next_signed`] and [`Store::prev_signed`]. They refuse the other species, and the other calls that take or give
//! elements refuse this one.
//!
//! ```
//! use dorrivand::{pointer, Refusal, Species, Store};
//!
//! let mut store = Store::with_segments(16)?;
//! store.open_new(2, 0, Species::Bits8)?;
//! assert_eq!(store.write(2, 0, pointer::END, 300), Err(Refusal::TooWide));
//!
//! store.open_new(2, 1, Species::Signed16)?;
//! store.write_signed(2, 1, pointer::END, -5)?;
//! assert_eq!(store.next_signed(2, 1, pointer::WORK), Ok(-5));
//! assert_eq!(store.prev(2, 1, pointer::WORK), Err(Refusal::NoSuchSpecies));
//! # Ok::<(), Refusal>(())
//! ```
//!
//! # Runs
//!
//! [`Store::write_run`] writes a list through a pointer and [`Store::fill_run`] fills one. The outcome is that of single
//! calls made one after another, up to the first that is refused; what those before it did stays done. The tables are judged
//! once for the whole run.
//!
//! # Names
//!
//! A name is made from bytes: space, tab and newline are skipped; `0` to `9` and `a` to `z` are the symbols 0 to 35; any
//! other byte ends the name; what follows the twelfth symbol is ignored. The empty name is the scratch name. No call
//! refuses a name for its bytes, so a natural name can lose a file:
//!
//! ```
//! use dorrivand::{Refusal, Species, Store};
//!
//! let mut store = Store::with_segments(16)?;
//!
//! // A capital letter ends the name. This one is empty, and a scratch file is gone at its close.
//! store.open_new(2, 0, Species::Bits16)?;
//! store.rename(2, 0, "Lift 7")?;
//! store.close_private(2, 0)?;
//! assert_eq!(store.open_read(2, 0, "lift 7"), Err(Refusal::UnknownName));
//!
//! // A hyphen ends the name too: "lift-7" is "lift".
//! store.open_new(2, 0, Species::Bits16)?;
//! store.rename(2, 0, "lift-7")?;
//! store.close_private(2, 0)?;
//! store.open_read(2, 0, "lift")?;
//!
//! // Twelve symbols are kept: "building 12 lift 1" and "building 12 lift 2" are both "building12li", one file.
//! store.open_new(2, 1, Species::Bits16)?;
//! store.rename(2, 1, "building 12 lift 1")?;
//! store.close_private(2, 1)?;
//! store.open_read(2, 1, "building 12 lift 2")?;
//! # Ok::<(), Refusal>(())
//! ```
//!
//! A [`Name`] is made only of bytes of which nothing is lost.
//!
//! # Errors
//!
//! Each call lists its refusals in the order in which they are judged: the first that applies is given. A refusal
//! [displays](Refusal#impl-Display-for-Refusal) its words; a `main` that returns it prints its identifier instead, so let it
//! print the words itself, as `examples/backup.rs` does.
//!
//! # Panics
//!
//! No call panics. A store is not made, and a call does panic, where the library that was linked is not the one that this
//! crate is written for ([`VERSION`]).
//!
//! # Keeping a store
//!
//! The module keeps nothing anywhere but in the cells that it is lent. docs/OPERATING.md says what to write to disk, and
//! `examples/backup.rs` does it. [`Store::tidy`] brings the files' segments together at the begin of the cells; after it a
//! store is saved again. Images that a library before version 7 saved are [moved up](forms) before they are loaded.

#![deny(missing_docs)]
#![deny(unsafe_code)]
#![deny(clippy::undocumented_unsafe_blocks)]

mod answer;
mod calls;
mod cells;
#[allow(unsafe_code)]
mod door;
mod elements;
pub mod forms;
mod name;
pub mod pointer;
mod refusal;
mod species;
mod store;
mod version;

pub use elements::Elements;
pub use name::{Name, NameError};
pub use refusal::Refusal;
pub use species::{Species, SpeciesNumber};
pub use store::Store;
pub use version::{library_version, VERSION};

/// The one length of the tables, in cells.
///
/// ```
/// assert_eq!(dorrivand::tables_length(), 4993);
/// ```
#[must_use]
pub fn tables_length() -> usize {
    door::tables_length()
}

/// The one length of an image that is saved or loaded, in cells.
///
/// ```
/// assert_eq!(dorrivand::image_length(), 961);
/// ```
#[must_use]
pub fn image_length() -> usize {
    door::image_length()
}

/// The one length of an image of form 1, which libraries before version 7 saved and [`forms`] moves, in cells.
///
/// ```
/// assert_eq!(dorrivand::old_image_length(), 897);
/// ```
#[must_use]
pub fn old_image_length() -> usize {
    door::old_image_length()
}
