//! A line of a history, taken apart. The forms are those of `second/`'s text: "work U E NAME", "up I J N", ..

use std::str::FromStr;

/// The calls, by the first word of their lines.
pub const CALLS: [&str; 32] = [
    "fresh",
    "save",
    "load",
    "up",
    "down",
    "tidy",
    "free",
    "new",
    "work",
    "read",
    "rename",
    "close",
    "public",
    "abandon",
    "reset",
    "pointer",
    "delete",
    "write",
    "next",
    "prev",
    "write_signed",
    "next_signed",
    "prev_signed",
    "writes",
    "nexts",
    "species",
    "claim",
    "permit",
    "symbol",
    "begin",
    "end",
    "value",
];

#[derive(Clone, Copy, PartialEq, Eq, Debug)]
pub enum Buffers {
    Store,
    Tables,
    Image(usize),
    List(usize),
}

#[derive(Clone, Copy, PartialEq, Eq, Debug)]
pub enum Line<'a> {
    /// The call's place in `CALLS`, its numbers (0 where it has fewer, a signed one as its 32 bits), and the bytes of its name.
    Call(usize, [u32; 4], &'a [u8]),
    Lend(Buffers, u32),
    Poke(Buffers, u32, u32),
}

impl Line<'_> {
    /// Nothing for a line that neither calls nor changes anything.
    pub fn read(line: &[u8]) -> Option<Line<'_>> {
        let (word, rest) = cut(line);
        let word = std::str::from_utf8(word).ok()?;
        match word {
            "lend" => {
                let (buffer, numbers) = buffer_and_numbers(rest)?;
                Some(Line::Lend(buffer, numbers[0]))
            }
            "poke" => {
                let (buffer, numbers) = buffer_and_numbers(rest)?;
                Some(Line::Poke(buffer, numbers[0], numbers[1]))
            }
            "work" | "read" | "rename" => {
                let (user, rest) = cut(rest);
                let (entry, name) = cut(rest);
                Some(Line::Call(call(word)?, [number(user)?, number(entry)?, 0, 0], name))
            }
            "write_signed" => {
                let (user_to_pointer, signed) = cut_last(rest);
                let [user, entry, pointer, _] = numbers(user_to_pointer)?;
                Some(Line::Call(call(word)?, [user, entry, pointer, number::<i32>(signed)? as u32], b""))
            }
            _ => Some(Line::Call(call(word)?, numbers(rest)?, b"")),
        }
    }
}

pub fn call(word: &str) -> Option<usize> {
    CALLS.iter().position(|&call| call == word)
}

/// Up to the first space, and after it.
fn cut(line: &[u8]) -> (&[u8], &[u8]) {
    match line.iter().position(|&byte| byte == b' ') {
        Some(space) => (&line[..space], &line[space + 1..]),
        None => (line, b""),
    }
}

/// Up to the last space, and after it.
fn cut_last(line: &[u8]) -> (&[u8], &[u8]) {
    match line.iter().rposition(|&byte| byte == b' ') {
        Some(space) => (&line[..space], &line[space + 1..]),
        None => (b"", line),
    }
}

fn number<N: FromStr>(word: &[u8]) -> Option<N> {
    std::str::from_utf8(word).ok()?.parse().ok()
}

fn numbers(mut rest: &[u8]) -> Option<[u32; 4]> {
    let mut numbers = [0; 4];
    for place in numbers.iter_mut() {
        if rest.is_empty() {
            break;
        }
        let (word, after) = cut(rest);
        *place = number(word)?;
        rest = after;
    }
    Some(numbers)
}

fn buffer_and_numbers(rest: &[u8]) -> Option<(Buffers, [u32; 4])> {
    let (word, rest) = cut(rest);
    let buffer = match word {
        b"store" => Buffers::Store,
        b"tables" => Buffers::Tables,
        b"image0" => Buffers::Image(0),
        b"image1" => Buffers::Image(1),
        b"image2" => Buffers::Image(2),
        b"image3" => Buffers::Image(3),
        b"list0" => Buffers::List(0),
        b"list1" => Buffers::List(1),
        _ => return None,
    };
    Some((buffer, numbers(rest)?))
}

#[cfg(test)]
mod tests {
    use super::*;

    #[test]
    fn calls_and_changes() {
        assert_eq!(Line::read(b"fresh"), Some(Line::Call(0, [0; 4], b"")));
        assert_eq!(Line::read(b"tidy"), Some(Line::Call(5, [0; 4], b"")));
        assert_eq!(Line::read(b"down 3 1 4294967295"), Some(Line::Call(4, [3, 1, u32::MAX, 0], b"")));
        assert_eq!(Line::read(b"write 1 2 3 4294967295"), Some(Line::Call(17, [1, 2, 3, u32::MAX], b"")));
        assert_eq!(Line::read(b"write_signed 1 2 3 -5"), Some(Line::Call(20, [1, 2, 3, -5_i32 as u32], b"")));
        assert_eq!(Line::read(b"write_signed 1 2 3 32768"), Some(Line::Call(20, [1, 2, 3, 32_768], b"")));
        assert_eq!(Line::read(b"write 1 2 3 -5"), None);
        assert_eq!(Line::read(b"prev_signed 1 2 3"), Some(Line::Call(22, [1, 2, 3, 0], b"")));
        assert_eq!(Line::read(b"nexts 1 2 3 1"), Some(Line::Call(24, [1, 2, 3, 1], b"")));
        assert_eq!(Line::read(b"work 1 2 a \n b"), Some(Line::Call(8, [1, 2, 0, 0], b"a \n b")));
        assert_eq!(Line::read(b"rename 1 2"), Some(Line::Call(10, [1, 2, 0, 0], b"")));
        assert_eq!(Line::read(b"lend tables 4993"), Some(Line::Lend(Buffers::Tables, 4993)));
        assert_eq!(Line::read(b"poke image3 5 6"), Some(Line::Poke(Buffers::Image(3), 5, 6)));
        assert_eq!(Line::read(b"poke list1 5 6"), Some(Line::Poke(Buffers::List(1), 5, 6)));
        assert_eq!(Line::read(b"sum store"), None);
    }
}
