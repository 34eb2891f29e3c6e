//! The text of histories: reading lines and answering them.

pub mod answering;
mod buffers;
pub mod line;
pub mod words;
