//! The tables and the images as cells: writing them out, reading them in, and judging whether they are sound.

mod bits;
pub mod fields;
pub mod form;
pub mod image;
pub mod judging;
pub mod outline;
pub mod tables;
pub mod writing;
