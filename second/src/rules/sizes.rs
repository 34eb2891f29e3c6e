//! "Sizes": the fixed numbers of the rules.

/// "Users 0 to 7."
pub const USERS: usize = 8;

/// "Each user has entries 0 to 3."
pub const ENTRIES: usize = 4;

/// "Catalogue: 64 places."
pub const PLACES: usize = 64;

/// "a segment is 4 blocks, 64 cells."
pub const SEGMENT_CELLS: usize = 64;

/// "A fresh start gives it floor(length / 64) segments, at most 1,024."
pub const MOST_SEGMENTS: usize = 1024;

/// "A file holds at most 32 segments."
pub const MOST_HELD: usize = 32;

/// Document 02: "Raise the begin and end limit to 4,294,967,295." No cell holds a greater number, so what is added to a
/// position must not go beyond it.
pub const GREATEST_END: u32 = 4_294_967_295;

/// "Names have at most 12 symbols."
pub const NAME_SYMBOLS: usize = 12;

/// "3 to 7 are own pointers."
pub const OWN_POINTERS: usize = 5;

/// The name of the first own pointer.
pub const FIRST_OWN: usize = 3;
