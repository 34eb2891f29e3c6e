//! Document 01's two saved images as it prints them: "the cells printed in 01 stay true of form 1".

use dorrivand::{pointer, Species, Store};

/// "Fresh with 128 segments"
pub const SEGMENTS: usize = 128;

pub const FORM_1_LENGTH: usize = 897;

/// Those of `store_with_a`, before zeros. The first alone is that of a fresh start.
pub const WITH_A: [u32; 5] = [0x0110_0000, 0x95FF_FFFF, 0xFFFF_FFFF, 0xFFAD_0000, 0x0100_0002];

/// "That store with one private file "a" of user 2, species 5, b = 1, e = 2, segment 0". The element is 7.
pub fn store_with_a() -> Store<'static> {
    let mut store = Store::with_segments(SEGMENTS).expect("there are segments");
    assert_eq!((store.open_new(2, 0, Species::Bits32), store.write(2, 0, pointer::END, 7)), (Ok(()), Ok(())));
    assert_eq!((store.rename(2, 0, "a"), store.close_private(2, 0)), (Ok(()), Ok(())));
    store
}

/// These cells, zeros after them as far as they are fewer.
pub fn of_length(cells: &[u32], length: usize) -> Vec<u32> {
    let mut cells = cells.to_vec();
    cells.resize(length, 0);
    cells
}
