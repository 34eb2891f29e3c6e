//! The fixed numbers and the small kinds of value that the rules speak of.

pub mod element;
pub mod name;
pub mod refusal;
pub mod sizes;
pub mod species;
