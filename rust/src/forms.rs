//! From the old image to the new and back.
//!
//! Libraries before version 7 save and load images of form 1, [897 cells](crate::old_image_length), later ones those of
//! form 2, [961 cells](crate::image_length). Both hold the same records, but a begin or an end in form 1 is at most
//! 16,777,215. An image that is moved and moved back has the same cells.
//!
//! An old backup is restored by a move [`up`] and a [load](crate::Store::load), over the cells that belong to it:
//!
//! ```
//! use dorrivand::{forms, pointer, Store};
//!
//! // A backup of 128 segments: user 2 has a private file "a", its one element in segment 0.
//! let mut old = vec![0; dorrivand::old_image_length()];
//! old[..5].copy_from_slice(&[0x0110_0000, 0x95FF_FFFF, 0xFFFF_FFFF, 0xFFAD_0000, 0x0100_0002]);
//! let mut cells = vec![0; 128 * 64];
//! cells[0] = 77;
//!
//! let mut image = vec![0; dorrivand::image_length()];
//! forms::up(&old, &mut image, 128)?;
//! let mut store = Store::from_cells(cells, vec![0; dorrivand::tables_length()]);
//! store.load(&image)?;
//! store.open_read(2, 0, "a")?;
//! assert_eq!(store.next(2, 0, pointer::WORK), Ok(77));
//! # Ok::<(), dorrivand::Refusal>(())
//! ```
//!
//! No store is needed for a move. The image is judged as by a load, over a store of as many segments as the caller says: one
//! for every 64 cells, or any greater number where the load is to decide.

use crate::answer::without_number;
use crate::door;
use crate::refusal::Refusal;
use crate::version::check_library;

/// Writes an image of form 1 as one of form 2. Every sound one is moved.
///
/// # Errors
///
/// [`UnsoundImage`](Refusal::UnsoundImage) (22) for a wrong length of either image, or an unsound old one.
///
/// ```
/// use dorrivand::{forms, Refusal};
///
/// let mut old = vec![0; dorrivand::old_image_length()];
/// old[0] = 0x0110_0000; // form 1, 128 segments, no files
/// let mut image = vec![7; dorrivand::image_length()];
/// assert_eq!(forms::up(&old, &mut image, 127), Err(Refusal::UnsoundImage));
/// assert_eq!(image[0], 7);
/// forms::up(&old, &mut image, 128)?;
/// assert_eq!(image[0], 0x0210_0000);
/// # Ok::<(), Refusal>(())
/// ```
pub fn up(old: &[u32], image: &mut [u32], segments: u32) -> Result<(), Refusal> {
    check_library();
    without_number(door::up(old, image, segments))
}

/// Writes an image of form 2 as one of form 1, for a library before version 7. One before version 6 does not know
/// [signed elements](crate::Species::Signed16), and will not load an image that has a file of them.
///
/// # Errors
///
/// [`UnsoundImage`](Refusal::UnsoundImage) (22) for a wrong length of either image, or an unsound new one, then
/// [`Far`](Refusal::Far) (24) if a begin or an end is above 16,777,215.
///
/// ```
/// use dorrivand::{forms, Refusal, Store};
///
/// let mut image = vec![0; dorrivand::image_length()];
/// Store::with_segments(128)?.save(&mut image)?;
/// let mut old = vec![7; dorrivand::old_image_length()];
/// forms::down(&image, &mut old, 128)?;
/// assert_eq!(old[0], 0x0110_0000);
///
/// let mut again = vec![7; dorrivand::image_length()];
/// forms::up(&old, &mut again, 128)?;
/// assert!(again == image);
/// # Ok::<(), Refusal>(())
/// ```
pub fn down(image: &[u32], old: &mut [u32], segments: u32) -> Result<(), Refusal> {
    check_library();
    without_number(door::down(image, old, segments))
}
