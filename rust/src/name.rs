//! Names of which nothing is lost.

use crate::door;
use std::error::Error;
use std::fmt;

/// "Names have at most 12 symbols."
const MOST_SYMBOLS: usize = 12;

/// "The rest is filled with symbol 63."
const FILLING: u32 = 63;

/// By symbol: "0" to "9" are symbols 0 to 9, "a" to "z" are 10 to 35.
const LETTERS: &[u8; 36] = b"0123456789abcdefghijklmnopqrstuvwxyz";

/// A name of which nothing is lost but what is skipped, and which is not empty.
///
/// The calls take any bytes as a name and keep of them [what makes one](crate#names). Who lets others choose names asks
/// here first, and can refuse what would not be given back:
///
/// ```
/// use dorrivand::{Name, NameError, Species, Store};
///
/// let name = Name::new("lift 7")?;
/// assert_eq!(name.to_string(), "lift7");
///
/// assert_eq!(Name::new("Lift 7"), Err(NameError::EndedByByte { at: 0, byte: b'L' }));
/// assert_eq!(Name::new("lift-7"), Err(NameError::EndedByByte { at: 4, byte: b'-' }));
/// assert_eq!(Name::new("building 12 lift 1"), Err(NameError::ThirteenthSymbol { at: 14 }));
/// assert_eq!(Name::new(" "), Err(NameError::Empty));
///
/// // The calls that take bytes take a name as well.
/// let mut store = Store::with_segments(4)?;
/// store.open_new(2, 0, Species::Bits32)?;
/// store.rename(2, 0, &name)?;
/// store.close_private(2, 0)?;
/// store.open_read(2, 0, &name)?;
/// # Ok::<(), Box<dyn std::error::Error>>(())
/// ```
#[derive(Clone, Copy, PartialEq, Eq, PartialOrd, Ord, Hash)]
pub struct Name {
    symbols: [u32; MOST_SYMBOLS],
    /// The symbols' letters, and 0 after them.
    letters: [u8; MOST_SYMBOLS],
}

impl Name {
    /// The name that these bytes make.
    ///
    /// # Errors
    ///
    /// Where a byte ends the name, a thirteenth symbol does, or there is no symbol at all. The words of the error say where:
    ///
    /// ```
    /// let error = dorrivand::Name::new("lift-7").unwrap_err();
    /// assert_eq!(error.to_string(), "byte 4, '-', ends the name: it has digits and small letters a to z alone");
    /// ```
    pub fn new(bytes: impl AsRef<[u8]>) -> Result<Name, NameError> {
        let bytes = bytes.as_ref();
        let mut symbols = [FILLING; MOST_SYMBOLS];
        let used = door::name_of(bytes, &mut symbols);
        match bytes.get(used) {
            Some(&byte) if is_symbol(byte) => return Err(NameError::ThirteenthSymbol { at: used }),
            Some(&byte) => return Err(NameError::EndedByByte { at: used, byte }),
            None if symbols[0] == FILLING => return Err(NameError::Empty),
            None => {}
        }
        let letters = symbols.map(|symbol| LETTERS.get(symbol as usize).copied().unwrap_or(0));
        Ok(Name { symbols, letters })
    }

    /// The twelve symbols: 0 to 35 for `0` to `9` and `a` to `z`, and 63 after the last one.
    ///
    /// ```
    /// let name = dorrivand::Name::new("lift 7")?;
    /// assert_eq!(name.symbols(), [21, 18, 15, 29, 7, 63, 63, 63, 63, 63, 63, 63]);
    /// # Ok::<(), dorrivand::NameError>(())
    /// ```
    #[must_use]
    pub fn symbols(&self) -> [u32; MOST_SYMBOLS] {
        self.symbols
    }

    /// The symbols as text, without what was skipped.
    ///
    /// ```
    /// assert_eq!(dorrivand::Name::new("lift 7")?.as_str(), "lift7");
    /// # Ok::<(), dorrivand::NameError>(())
    /// ```
    #[must_use]
    pub fn as_str(&self) -> &str {
        let length = self.symbols.iter().take_while(|&&symbol| symbol != FILLING).count();
        std::str::from_utf8(&self.letters[..length]).expect("digits and letters are text")
    }
}

/// Whether the library makes a symbol of this byte, which it does not skip.
fn is_symbol(byte: u8) -> bool {
    door::name_of(&[byte], &mut []) == 1
}

impl AsRef<[u8]> for Name {
    fn as_ref(&self) -> &[u8] {
        self.as_str().as_bytes()
    }
}

impl fmt::Display for Name {
    fn fmt(&self, formatter: &mut fmt::Formatter<'_>) -> fmt::Result {
        formatter.pad(self.as_str())
    }
}

impl fmt::Debug for Name {
    fn fmt(&self, formatter: &mut fmt::Formatter<'_>) -> fmt::Result {
        formatter.debug_tuple("Name").field(&self.as_str()).finish()
    }
}

/// Why bytes are no [`Name`]. Indices count from 0.
#[derive(Clone, Copy, PartialEq, Eq, Hash, Debug)]
#[non_exhaustive]
pub enum NameError {
    /// A byte that is neither a symbol nor skipped ends the name; what follows is lost.
    EndedByByte {
        /// The index of the byte.
        at: usize,
        /// The byte.
        byte: u8,
    },
    /// A thirteenth symbol: it and what follows are lost.
    ThirteenthSymbol {
        /// The index of the symbol's byte.
        at: usize,
    },
    /// No symbol at all: the scratch name.
    Empty,
}

impl fmt::Display for NameError {
    fn fmt(&self, formatter: &mut fmt::Formatter<'_>) -> fmt::Result {
        match self {
            NameError::EndedByByte { at, byte } => {
                let byte = byte.escape_ascii();
                write!(formatter, "byte {at}, '{byte}', ends the name: it has digits and small letters a to z alone")
            }
            NameError::ThirteenthSymbol { at } => {
                write!(formatter, "byte {at} is a thirteenth symbol: a name has at most twelve")
            }
            NameError::Empty => formatter.write_str("the name is empty"),
        }
    }
}

impl Error for NameError {}

#[cfg(test)]
mod tests {
    use super::*;

    /// Not a symbol of any name.
    const UNTOUCHED: u32 = 77;

    #[test]
    fn symbols_go_where_there_are_cells() {
        for cells in 0..=MOST_SYMBOLS + 2 {
            let mut symbols = vec![UNTOUCHED; cells];
            assert_eq!(door::name_of(b"lift 7 ", &mut symbols), 7);
            let mut wanted = vec![21, 18, 15, 29, 7, 63, 63, 63, 63, 63, 63, 63, UNTOUCHED, UNTOUCHED];
            wanted.truncate(cells);
            assert_eq!(symbols, wanted);
        }
    }

    #[test]
    fn bytes_used() {
        for (bytes, used) in [("", 0), ("Lift 7", 0), ("lift-7", 4), ("building 12 lift 1", 14), (" \t\n", 3)] {
            assert_eq!(door::name_of(bytes.as_bytes(), &mut []), used, "{bytes}");
        }
    }

    #[test]
    fn after_the_twelfth_symbol() {
        assert_eq!(Name::new("abcdefghijkl \t\n").map(|name| name.to_string()), Ok("abcdefghijkl".to_string()));
        assert_eq!(Name::new("abcdefghijkl m"), Err(NameError::ThirteenthSymbol { at: 13 }));
        assert_eq!(Name::new("abcdefghijkl M"), Err(NameError::EndedByByte { at: 13, byte: b'M' }));
    }

    #[test]
    fn a_name_makes_itself() {
        let name = Name::new("z 0").expect("a name");
        assert_eq!(Name::new(name), Ok(name));
        assert_eq!(format!("{name:?} {name:>4}"), "Name(\"z0\")   z0");
    }
}
