//! What the module keeps: the store's cells, the files, the records and the openings.

pub mod buffer;
pub mod catalogue;
pub mod file;
pub mod opening;
pub mod record;
pub mod store;
