//! Random calls through the library's door, compared with the second program: every answer, and after every call every cell
//! of store, tables, images and lists.

pub mod buffer;
pub mod door;
pub mod law;
pub mod line;
pub mod pair;
pub mod random;
pub mod reply;
pub mod shorten;
pub mod spoiling;
pub mod stories;
pub mod tally;
pub mod teller;
