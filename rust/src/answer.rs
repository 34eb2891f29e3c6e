//! The answer of a call, unpacked, and what a run came to.

use crate::refusal::Refusal;
use crate::species::Species;
use std::fmt::Display;

pub type Answer = Result<u32, Refusal>;

/// The answer of a call that gives a signed number.
pub type SignedAnswer = Result<i32, Refusal>;

/// "done n is n, refused n is 2^32 + n".
pub fn answer(packed: u64) -> Answer {
    let number = (packed & u64::from(u32::MAX)) as u32;
    match (packed >> 32, Refusal::from_number(number)) {
        (0, _) => Ok(number),
        (1, Some(refusal)) => Err(refusal),
        _ => unknown(packed, "an answer"),
    }
}

/// The same of a signed number, which is one of 16 bits.
pub fn signed_answer(packed: i64) -> SignedAnswer {
    let number = (packed & i64::from(u32::MAX)) as u32;
    match (i16::try_from(packed), packed >> 32, Refusal::from_number(number)) {
        (Ok(number), ..) => Ok(i32::from(number)),
        (_, 1, Some(refusal)) => Err(refusal),
        _ => unknown(packed, "a signed answer"),
    }
}

/// An answer for which the law gives no number: the library says 0.
pub fn without_number(answer: Answer) -> Result<(), Refusal> {
    match answer? {
        0 => Ok(()),
        number => unknown(number, "done without a number"),
    }
}

/// "work permit (1 or 0)".
pub fn yes_or_no(answer: Answer) -> Result<bool, Refusal> {
    match answer? {
        0 => Ok(false),
        1 => Ok(true),
        number => unknown(number, "yes or no"),
    }
}

pub fn species(answer: Answer) -> Result<Species, Refusal> {
    let number = answer?;
    Ok(Species::from_number(number).unwrap_or_else(|| unknown(number, "a species")))
}

/// What stopped a run: "that refusal's number, or 0".
pub fn stop(number: u32) -> Option<Refusal> {
    match (number, Refusal::from_number(number)) {
        (0, _) => None,
        (_, None) => unknown(number, "what stops a run"),
        (_, refusal) => refusal,
    }
}

/// How many of a list's elements a run answers: never more than there are.
pub fn elements_of(list: &[u32], answered: usize) -> usize {
    match answered <= list.len() {
        true => answered,
        false => unknown(answered, "a number of the list's elements"),
    }
}

/// The library is proved to answer nothing else; another answer means that another library was linked, and then no answer
/// can be relied upon.
fn unknown(given: impl Display, wanted: &str) -> ! {
    panic!("the library answered {given}, which is not {wanted}: it is not the one that this crate is written for")
}

#[cfg(test)]
mod tests {
    use super::*;

    #[test]
    fn done_and_refused() {
        assert_eq!(answer(0), Ok(0));
        assert_eq!(answer(12), Ok(12));
        assert_eq!(answer(0xFFFF_FFFF), Ok(u32::MAX));
        assert_eq!(answer(0x1_0000_000E), Err(Refusal::NotNow));
    }

    #[test]
    fn every_refusal_has_its_number() {
        for refusal in Refusal::ALL {
            assert_eq!(answer((1 << 32) + u64::from(refusal.number())), Err(*refusal));
            assert_eq!(signed_answer((1 << 32) + i64::from(refusal.number())), Err(*refusal));
        }
    }

    #[test]
    fn done_with_a_signed_number() {
        for number in [-32_768, -1, 0, 1, 32_767] {
            assert_eq!(signed_answer(i64::from(number)), Ok(number));
        }
    }

    #[test]
    #[should_panic(expected = "32768, which is not a signed answer")]
    fn a_signed_number_too_great() {
        let _ = signed_answer(32_768);
    }

    #[test]
    #[should_panic(expected = "-32769, which is not a signed answer")]
    fn a_signed_number_too_small() {
        let _ = signed_answer(-32_769);
    }

    #[test]
    #[should_panic(expected = "not a signed answer")]
    fn a_signed_refusal_without_a_case() {
        let _ = signed_answer((1 << 32) + 12);
    }

    #[test]
    #[should_panic(expected = "-9223372036854775808, which is not a signed answer")]
    fn the_least_of_64_bits() {
        let _ = signed_answer(i64::MIN);
    }

    #[test]
    #[should_panic(expected = "not an answer")]
    fn a_refusal_without_a_case() {
        let _ = answer(0x1_0000_0019);
    }

    #[test]
    #[should_panic(expected = "not an answer")]
    fn twelve_is_no_longer_given() {
        let _ = answer(0x1_0000_000C);
    }

    #[test]
    #[should_panic(expected = "not an answer")]
    fn more_than_33_bits() {
        let _ = answer(0x2_0000_0001);
    }

    #[test]
    #[should_panic(expected = "not done without a number")]
    fn a_number_too_many() {
        let _ = without_number(Ok(1));
    }

    #[test]
    #[should_panic(expected = "not yes or no")]
    fn neither_yes_nor_no() {
        let _ = yes_or_no(Ok(2));
    }

    #[test]
    fn stops_of_runs() {
        assert_eq!((stop(0), stop(9)), (None, Some(Refusal::NoRoom)));
        assert_eq!((elements_of(&[], 0), elements_of(&[7, 7], 2)), (0, 2));
    }

    #[test]
    #[should_panic(expected = "25, which is not what stops a run")]
    fn a_stop_without_a_case() {
        let _ = stop(25);
    }

    #[test]
    #[should_panic(expected = "3, which is not a number of the list's elements")]
    fn more_than_the_list_has() {
        let _ = elements_of(&[7, 7], 3);
    }

    #[test]
    #[should_panic(expected = "7, which is not a species")]
    fn no_species() {
        let _ = species(Ok(7));
    }
}
