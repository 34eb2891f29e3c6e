//! A file module, written from its rules alone, with the text that drives it and a generator of histories.
//!
//! The files are kept as lists of elements, the openings as structs, the free segments as a set. The cells of
//! the tables and of the images exist only where somebody looks at them, pokes them or loads them.

pub mod calls;
pub mod cells;
pub mod model;
pub mod rules;
pub mod telling;
pub mod text;
