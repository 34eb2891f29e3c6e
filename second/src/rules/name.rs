//! "Names": twelve symbols made from a byte string.

use super::sizes::NAME_SYMBOLS;

/// "The rest is filled with symbol 63."
const FILLING: u8 = 63;

/// The symbols of "0" to "9" and "a" to "z" are 0 to 35.
const LETTERS: u32 = 36;

#[derive(Clone, Copy, PartialEq, Eq, Debug)]
pub struct Name([u8; NAME_SYMBOLS]);

impl Name {
    /// "The empty name is the scratch name."
    pub const SCRATCH: Name = Name([FILLING; NAME_SYMBOLS]);

    /// "space, tab and newline (32, 9, 10) are skipped; "0" to "9" are symbols 0 to 9, "a" to "z" are 10 to 35;
    /// any other byte ends the name; what follows the twelfth symbol is ignored."
    pub fn from_bytes(bytes: &[u8]) -> Name {
        let symbols = bytes.iter().filter(|byte| !matches!(byte, b' ' | b'\t' | b'\n')).map_while(|&byte| match byte {
            b'0'..=b'9' => Some(byte - b'0'),
            b'a'..=b'z' => Some(byte - b'a' + 10),
            _ => None,
        });
        let mut name = Name::SCRATCH;
        for (place, symbol) in name.0.iter_mut().zip(symbols) {
            *place = symbol;
        }
        name
    }

    /// "symbols 0 to 35 and then only 63": a name or the scratch name, or nothing if it is neither.
    pub fn from_symbols(symbols: &[u32]) -> Option<Name> {
        let letters = symbols.iter().take_while(|&&symbol| symbol < LETTERS).count();
        let rest_is_filling = symbols[letters..].iter().all(|&symbol| symbol == u32::from(FILLING));
        if symbols.len() != NAME_SYMBOLS || !rest_is_filling {
            return None;
        }
        let mut name = Name::SCRATCH;
        for (place, &symbol) in name.0.iter_mut().zip(&symbols[..letters]) {
            *place = symbol as u8;
        }
        Some(name)
    }

    pub fn is_scratch(&self) -> bool {
        self.0[0] == FILLING
    }

    /// "symbol k of the name (k from 0; 63 for k of 12 or more)".
    pub fn symbol(&self, k: u32) -> u32 {
        let found = usize::try_from(k).ok().and_then(|k| self.0.get(k));
        u32::from(*found.unwrap_or(&FILLING))
    }

    pub fn symbols(&self) -> [u32; NAME_SYMBOLS] {
        self.0.map(u32::from)
    }
}

#[cfg(test)]
mod tests {
    use super::Name;

    #[test]
    fn worked_names() {
        let lift = Name::from_bytes(b"lift 7").symbols();
        assert_eq!(lift, [21, 18, 15, 29, 7, 63, 63, 63, 63, 63, 63, 63]);
        assert_eq!(Name::from_bytes(b"Lift"), Name::SCRATCH);
        assert!(Name::from_bytes(b"").is_scratch());
    }

    #[test]
    fn skipping_ending_and_ignoring() {
        assert_eq!(Name::from_bytes(b" \ta\n b-c"), Name::from_bytes(b"ab"));
        assert_eq!(Name::from_bytes(b"abcdefghijklmno"), Name::from_bytes(b"abcdefghijkl"));
        assert_eq!(Name::from_bytes(b"abcdefghijkl").symbol(12), 63);
        assert_eq!(Name::from_bytes(b"abcdefghijkl").symbol(11), 21);
    }

    #[test]
    fn symbols_and_back() {
        let name = Name::from_bytes(b"z0");
        assert_eq!(Name::from_symbols(&name.symbols()), Some(name));
        assert_eq!(Name::from_symbols(&[63; 12]), Some(Name::SCRATCH));
        let mut gap = name.symbols();
        gap[3] = 4;
        assert_eq!(Name::from_symbols(&gap), None);
        gap[3] = 36;
        assert_eq!(Name::from_symbols(&gap), None);
    }
}
