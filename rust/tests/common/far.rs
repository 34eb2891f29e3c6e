//! Where positions end, and how a test gets there.

use dorrivand::Store;

/// "Raise the begin and end limit to 4,294,967,295."
pub const GREATEST_END: u32 = 4_294_967_295;

/// The begin, the end and the work pointer of user 0's entry 0 in the tables (docs/TABLES.md).
const POINTER_CELLS: [usize; 3] = [3201 + 4, 3201 + 5, 3201 + 6];

/// Puts the empty file at entry 0 of user 0 to this position, as if all before it had been appended and dropped.
pub fn move_empty_file(store: &mut Store, position: u32) {
    POINTER_CELLS.iter().for_each(|&cell| store.tables_mut()[cell] = position);
}
