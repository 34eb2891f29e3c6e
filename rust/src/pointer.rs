//! The names of a file's pointers.
//!
//! ```
//! use dorrivand::{pointer, Species, Store};
//!
//! let mut store = Store::with_segments(4)?;
//! store.open_new(0, 0, Species::Bits32)?;
//! store.write(0, 0, pointer::END, 10)?;
//! assert_eq!(store.next(0, 0, pointer::WORK), Ok(10));
//! assert!(pointer::OWN.contains(&store.new_pointer(0, 0, pointer::BEGIN)?));
//! # Ok::<(), dorrivand::Refusal>(())
//! ```

use std::ops::RangeInclusive;

/// The begin: it stands at the first element. What is read or written through it leaves the file.
pub const BEGIN: u32 = 0;

/// The end: it stands after the last element. What is written through it is appended, what is read backwards through it
/// leaves the file. Where it is 4,294,967,295, nothing more is appended.
pub const END: u32 = 1;

/// The work pointer, which each opening has: at the begin when a file is new or opened for reading, at the end when an old one
/// is opened for work.
pub const WORK: u32 = 2;

/// The own pointers, which are made and deleted.
pub const OWN: RangeInclusive<u32> = 3..=7;
