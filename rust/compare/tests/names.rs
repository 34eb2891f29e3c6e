//! Names beside the second program's: what the crate takes is kept whole, and what it does not take would be cut there.

use compare::random::Random;
use dorrivand::{Name, NameError};
use filing::rules::name::Name as Second;

const TRIALS: usize = 100_000;

/// Mostly symbols and skipped bytes, so that some names are long.
const USUAL: &[u8] = b"abz019 \t\n";

fn is_symbol(byte: u8) -> bool {
    !Second::from_bytes(&[byte]).is_scratch()
}

fn is_skipped(byte: u8) -> bool {
    [b' ', b'\t', b'\n'].contains(&byte)
}

/// The first byte that ends the name or is a thirteenth symbol.
fn first_lost(bytes: &[u8]) -> Option<usize> {
    let ends = |at: &usize| {
        let symbols = bytes[..*at].iter().filter(|&&byte| is_symbol(byte)).count();
        !is_skipped(bytes[*at]) && (!is_symbol(bytes[*at]) || symbols == 12)
    };
    (0..bytes.len()).find(ends)
}

fn some_bytes(random: &mut Random) -> Vec<u8> {
    let length = random.below(30);
    let strange = random.one_of(&[2, 30, 1_000]);
    (0..length).map(|_| if random.once_in(strange) { random.any() as u8 } else { random.one_of(USUAL) }).collect()
}

#[test]
fn what_the_crate_takes_is_what_second_keeps() {
    let mut random = Random::new(1973);
    let mut seen = [0; 4];
    for _ in 0..TRIALS {
        let bytes = some_bytes(&mut random);
        let second = Second::from_bytes(&bytes);
        let shown = bytes.escape_ascii();
        match Name::new(&bytes) {
            Ok(name) => {
                seen[0] += 1;
                assert_eq!(first_lost(&bytes), None, "{shown}");
                assert_eq!(name.symbols(), second.symbols(), "{shown}");
                assert_eq!(Second::from_bytes(name.as_ref()), second, "{shown}");
            }
            Err(NameError::EndedByByte { at, byte }) => {
                seen[1] += 1;
                assert_eq!((first_lost(&bytes), bytes[at], is_symbol(byte)), (Some(at), byte, false), "{shown}");
            }
            Err(NameError::ThirteenthSymbol { at }) => {
                seen[2] += 1;
                assert_eq!((first_lost(&bytes), is_symbol(bytes[at])), (Some(at), true), "{shown}");
            }
            Err(NameError::Empty) => {
                seen[3] += 1;
                assert!(first_lost(&bytes).is_none() && second.is_scratch(), "{shown}");
            }
            Err(other) => panic!("{shown}: {other}"),
        }
    }
    assert!(seen.iter().all(|&count| count > 0), "each outcome is seen: {seen:?}");
}
