//! "Any other line is words parted by exactly one space."

/// Why a line is none of those that are known; the text of the answer after its `?`.
#[derive(Clone, Copy, PartialEq, Eq, Debug)]
pub struct BadLine(pub &'static str);

/// "decimal digits ... (at most ten digits; leading zeros may stand)".
fn digits(word: &[u8]) -> Result<i64, BadLine> {
    if word.is_empty() || word.len() > 10 || !word.iter().all(u8::is_ascii_digit) {
        return Err(BadLine("a word is not a number of at most ten digits"));
    }
    Ok(word.iter().fold(0, |value, digit| value * 10 + i64::from(digit - b'0')))
}

/// "A number is decimal digits, 0 to 4294967295".
pub fn number(word: &[u8]) -> Result<u32, BadLine> {
    u32::try_from(digits(word)?).map_err(|_| BadLine("a number is above 4294967295"))
}

/// "A signed number is digits with or without one `-` before them, -2147483648 to 2147483647."
pub fn signed_number(word: &[u8]) -> Result<i32, BadLine> {
    let value = match word.strip_prefix(b"-") {
        Some(word) => -digits(word)?,
        None => digits(word)?,
    };
    i32::try_from(value).map_err(|_| BadLine("a signed number is not from -2147483648 to 2147483647"))
}

/// The line's first word, and what follows the space after it; nothing follows where there is no space.
pub fn first_word(line: &[u8]) -> (&[u8], Option<&[u8]>) {
    let mut parts = line.splitn(2, |&byte| byte == b' ');
    let word = parts.next().unwrap_or(line);
    (word, parts.next())
}

/// Exactly so many words, as they stand.
pub fn words<const COUNT: usize>(rest: Option<&[u8]>) -> Result<[&[u8]; COUNT], BadLine> {
    let mut found: [&[u8]; COUNT] = [&[]; COUNT];
    let mut count = 0;
    // A line without a space after its first word has no further words; one with it has at least one, perhaps
    // of no bytes.
    for word in rest.into_iter().flat_map(|rest| rest.split(|&byte| byte == b' ')) {
        *found.get_mut(count).ok_or(BadLine("a word too many"))? = word;
        count += 1;
    }
    if count < COUNT {
        return Err(BadLine("a word too few"));
    }
    Ok(found)
}

/// Exactly so many numbers.
pub fn numbers<const COUNT: usize>(rest: Option<&[u8]>) -> Result<[u32; COUNT], BadLine> {
    let mut values = [0; COUNT];
    for (value, word) in values.iter_mut().zip(words::<COUNT>(rest)?) {
        *value = number(word)?;
    }
    Ok(values)
}

/// "NAME is all bytes after the space that follows E, up to the line's end, as they are (spaces too); where
/// nothing follows E, with or without that space, it is the empty byte string."
pub fn entry_and_name(rest: Option<&[u8]>) -> Result<(u32, u32, &[u8]), BadLine> {
    let mut parts = rest.ok_or(BadLine("a word too few"))?.splitn(3, |&byte| byte == b' ');
    let user = number(parts.next().ok_or(BadLine("a word too few"))?)?;
    let entry = number(parts.next().ok_or(BadLine("a word too few"))?)?;
    Ok((user, entry, parts.next().unwrap_or(&[])))
}

#[cfg(test)]
mod tests {
    use super::*;

    #[test]
    fn signed_numbers() {
        let good: [(&[u8], i32); 10] = [
            (b"0", 0),
            (b"-0", 0),
            (b"-0000000000", 0),
            (b"5", 5),
            (b"-5", -5),
            (b"0000000005", 5),
            (b"-0000000005", -5),
            (b"2147483647", 2_147_483_647),
            (b"-2147483647", -2_147_483_647),
            (b"-2147483648", -2_147_483_648),
        ];
        for (word, value) in good {
            assert_eq!(signed_number(word), Ok(value));
        }
    }

    #[test]
    fn words_that_are_no_signed_numbers() {
        let bad: [&[u8]; 13] = [
            b"",
            b"-",
            b"--1",
            b"+1",
            b"-+1",
            b"1-",
            b"- 1",
            b"-1.0",
            b"-0x1",
            b"2147483648",
            b"-2147483649",
            b"00000000000",
            b"-00000000001",
        ];
        for word in bad {
            assert!(signed_number(word).is_err(), "{}", String::from_utf8_lossy(word));
        }
        assert!(number(b"-1").is_err() && number(b"-0").is_err(), "plain numbers have no sign");
    }
}
