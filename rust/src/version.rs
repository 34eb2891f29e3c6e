//! That the library which is linked is the one that this crate is written for.

use crate::door;

/// The version of the library that this crate is written for. It grows by 1 with each change that a caller can notice;
/// docs/CHANGES.md lists them.
pub const VERSION: u32 = 8;

/// The version of the library that is linked. A [`Store`](crate::Store) is made, and an image is
/// [moved](crate::forms), only where it is [`VERSION`].
///
/// ```
/// assert_eq!(dorrivand::library_version(), dorrivand::VERSION);
/// ```
#[must_use]
pub fn library_version() -> u32 {
    door::version()
}

pub fn check_library() {
    check(library_version());
}

fn check(linked: u32) {
    assert!(
        linked == VERSION,
        "the library that is linked is of version {linked}, and this crate is written for version {VERSION}: \
         take both from one place, and run `tools/build door` there"
    );
}

#[cfg(test)]
mod tests {
    use super::*;

    #[test]
    fn the_linked_library() {
        check_library();
    }

    #[test]
    #[should_panic(expected = "is of version 9, and this crate is written for version 8")]
    fn a_later_library() {
        check(VERSION + 1);
    }
}
