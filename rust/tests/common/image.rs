//! Saved images.

use dorrivand::Store;

/// "Cell 0: form 8 bits, number of segments 11 bits, 13 zero bits", "form number 2 in cell 0."
pub fn heading(segments: usize) -> u32 {
    2 << 24 | (segments as u32) << 13
}

pub fn image_of(store: &Store) -> Vec<u32> {
    let mut image = vec![u32::MAX; dorrivand::image_length()];
    assert_eq!(store.save(&mut image), Ok(()));
    image
}
