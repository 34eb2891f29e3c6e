//! The lines that there are.

use super::words::{entry_and_name, first_word, number, numbers, signed_number, words, BadLine};
use crate::calls::inquiries::Inquiry;
use crate::rules::element::{Element, Kind};
use crate::rules::name::Name;

pub const IMAGES: usize = 4;

pub const LISTS: usize = 2;

/// What `help`, which is a bad line, is told.
const HELP: &str = "fresh; save I; load I; up I J N; down I J N; tidy; free U; new U E S; work U E NAME; read U E NAME; \
    rename U E NAME; close U E; public U E; abandon U E; reset U E; pointer U E P; delete U E P; write U E P X; next U E P; \
    prev U E P; write_signed U E P X; next_signed U E P; prev_signed U E P; writes U E P L; nexts U E P L; species U E; \
    claim U E; permit U E; begin U E; end U E; symbol U E K; value U E P; lend BUFFER N; peek BUFFER I; poke BUFFER I V; \
    sum BUFFER";

#[derive(Clone, Copy, PartialEq, Eq, Debug)]
pub enum BufferName {
    Store,
    Tables,
    Image(usize),
    List(usize),
}

/// One line that is neither empty nor a comment. U is the user and E the entry, always the first two numbers. A plain call
/// and its signed twin differ by the kind.
#[derive(Clone, Copy, PartialEq, Eq, Debug)]
pub enum Line {
    Fresh,
    Save(usize),
    Load(usize),
    Up(usize, usize, u32),
    Down(usize, usize, u32),
    Tidy,
    Free(u32),
    New(u32, u32, u32),
    Work(u32, u32, Name),
    Read(u32, u32, Name),
    Rename(u32, u32, Name),
    Close(u32, u32),
    Public(u32, u32),
    Abandon(u32, u32),
    Reset(u32, u32),
    Pointer(u32, u32, u32),
    Delete(u32, u32, u32),
    Write(Kind, u32, u32, u32, Element),
    Next(Kind, u32, u32, u32),
    Prev(Kind, u32, u32, u32),
    Writes(u32, u32, u32, usize),
    Nexts(u32, u32, u32, usize),
    Inquire(u32, u32, Inquiry),
    Lend(BufferName, u32),
    Peek(BufferName, u32),
    Poke(BufferName, u32, u32),
    Sum(BufferName),
}

impl Line {
    pub fn read(line: &[u8]) -> Result<Line, BadLine> {
        let (word, rest) = first_word(line);
        Ok(match word {
            b"fresh" => words(rest).map(|[]: [&[u8]; 0]| Line::Fresh)?,
            b"save" => numbers(rest).and_then(|[i]| Ok(Line::Save(image_number(i)?)))?,
            b"load" => numbers(rest).and_then(|[i]| Ok(Line::Load(image_number(i)?)))?,
            b"up" => two_images_and_number(rest).map(|(i, j, n)| Line::Up(i, j, n))?,
            b"down" => two_images_and_number(rest).map(|(i, j, n)| Line::Down(i, j, n))?,
            b"tidy" => words(rest).map(|[]: [&[u8]; 0]| Line::Tidy)?,
            b"free" => numbers(rest).map(|[u]| Line::Free(u))?,
            b"new" => numbers(rest).map(|[u, e, s]| Line::New(u, e, s))?,
            b"work" => entry_and_name(rest).map(|(u, e, name)| Line::Work(u, e, Name::from_bytes(name)))?,
            b"read" => entry_and_name(rest).map(|(u, e, name)| Line::Read(u, e, Name::from_bytes(name)))?,
            b"rename" => entry_and_name(rest).map(|(u, e, name)| Line::Rename(u, e, Name::from_bytes(name)))?,
            b"close" => numbers(rest).map(|[u, e]| Line::Close(u, e))?,
            b"public" => numbers(rest).map(|[u, e]| Line::Public(u, e))?,
            b"abandon" => numbers(rest).map(|[u, e]| Line::Abandon(u, e))?,
            b"reset" => numbers(rest).map(|[u, e]| Line::Reset(u, e))?,
            b"pointer" => numbers(rest).map(|[u, e, p]| Line::Pointer(u, e, p))?,
            b"delete" => numbers(rest).map(|[u, e, p]| Line::Delete(u, e, p))?,
            b"write" => write(rest, Kind::Plain)?,
            b"next" => numbers(rest).map(|[u, e, p]| Line::Next(Kind::Plain, u, e, p))?,
            b"prev" => numbers(rest).map(|[u, e, p]| Line::Prev(Kind::Plain, u, e, p))?,
            b"write_signed" => write(rest, Kind::Signed)?,
            b"next_signed" => numbers(rest).map(|[u, e, p]| Line::Next(Kind::Signed, u, e, p))?,
            b"prev_signed" => numbers(rest).map(|[u, e, p]| Line::Prev(Kind::Signed, u, e, p))?,
            b"writes" => entry_pointer_and_list(rest).map(|(u, e, p, list)| Line::Writes(u, e, p, list))?,
            b"nexts" => entry_pointer_and_list(rest).map(|(u, e, p, list)| Line::Nexts(u, e, p, list))?,
            b"species" => numbers(rest).map(|[u, e]| Line::Inquire(u, e, Inquiry::Species))?,
            b"claim" => numbers(rest).map(|[u, e]| Line::Inquire(u, e, Inquiry::Claim))?,
            b"permit" => numbers(rest).map(|[u, e]| Line::Inquire(u, e, Inquiry::Permit))?,
            b"begin" => numbers(rest).map(|[u, e]| Line::Inquire(u, e, Inquiry::Begin))?,
            b"end" => numbers(rest).map(|[u, e]| Line::Inquire(u, e, Inquiry::End))?,
            b"symbol" => numbers(rest).map(|[u, e, k]| Line::Inquire(u, e, Inquiry::Symbol(k)))?,
            b"value" => numbers(rest).map(|[u, e, p]| Line::Inquire(u, e, Inquiry::Value(p)))?,
            b"lend" => {
                let [buffer, length] = words(rest)?;
                Line::Lend(buffer_name(buffer)?, number(length)?)
            }
            b"peek" => {
                let [buffer, cell] = words(rest)?;
                Line::Peek(buffer_name(buffer)?, number(cell)?)
            }
            b"poke" => {
                let [buffer, cell, value] = words(rest)?;
                Line::Poke(buffer_name(buffer)?, number(cell)?, number(value)?)
            }
            b"sum" => {
                let [buffer] = words(rest)?;
                Line::Sum(buffer_name(buffer)?)
            }
            b"help" => return Err(BadLine(HELP)),
            _ => return Err(BadLine("an unknown word; help lists the lines")),
        })
    }
}

/// "image buffer I (0 to 3)"; another one is "a buffer ... that is not there".
fn image_number(image: u32) -> Result<usize, BadLine> {
    match usize::try_from(image) {
        Ok(image) if image < IMAGES => Ok(image),
        _ => Err(BadLine("no such image buffer")),
    }
}

/// "A line that names one buffer twice where two are lent is a bad line."
fn two_images_and_number(rest: Option<&[u8]>) -> Result<(usize, usize, u32), BadLine> {
    let [image, other, number] = numbers(rest)?;
    match (image_number(image)?, image_number(other)?) {
        (image, other) if image != other => Ok((image, other, number)),
        _ => Err(BadLine("one image buffer is named twice")),
    }
}

/// "write X through P"; in a `write_signed` X is a signed number, the others are not.
fn write(rest: Option<&[u8]>, kind: Kind) -> Result<Line, BadLine> {
    let [user, entry, pointer, x] = words(rest)?;
    let x = match kind {
        Kind::Plain => Element::from(number(x)?),
        Kind::Signed => Element::from(signed_number(x)?),
    };
    Ok(Line::Write(kind, number(user)?, number(entry)?, number(pointer)?, x))
}

/// "L and M name a list buffer (0 or 1)"; another one is not there.
fn entry_pointer_and_list(rest: Option<&[u8]>) -> Result<(u32, u32, u32, usize), BadLine> {
    let [user, entry, pointer, list] = numbers(rest)?;
    match usize::try_from(list) {
        Ok(list) if list < LISTS => Ok((user, entry, pointer, list)),
        _ => Err(BadLine("no such list buffer")),
    }
}

fn buffer_name(word: &[u8]) -> Result<BufferName, BadLine> {
    match word {
        b"store" => Ok(BufferName::Store),
        b"tables" => Ok(BufferName::Tables),
        b"image0" => Ok(BufferName::Image(0)),
        b"image1" => Ok(BufferName::Image(1)),
        b"image2" => Ok(BufferName::Image(2)),
        b"image3" => Ok(BufferName::Image(3)),
        b"list0" => Ok(BufferName::List(0)),
        b"list1" => Ok(BufferName::List(1)),
        _ => Err(BadLine("no such buffer")),
    }
}
