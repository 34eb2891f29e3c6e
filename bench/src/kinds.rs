//! Each kind of call, with 0, 20 and 64 records, and on a full store where that differs.
use crate::book::Book;
use crate::calls::Call::{self, *};
use crate::measure;
use crate::scenes::{full, open_file, own, records, Scene, HERE};
use crate::tables::SEGMENTS;
use crate::twin::{AS_WIDE_AS_SIGNED, SIGNED_SPECIES, WHOLE_SPECIES};

/// Any number of records; a call that needs one; a call that needs a free place.
const ANY: [usize; 3] = [0, 20, 64];
const SOME: [usize; 3] = [1, 20, 64];
const NOT_ALL: [usize; 3] = [0, 20, 63];
/// "no room: a segment needed, none free"
const NO_ROOM: Option<u32> = Some(9);

/// A row for each number of records.
fn rows(book: &mut Book, what: &str, numbers: [usize; 3], scene: impl Fn(usize) -> Scene, call: Call) {
    for number in numbers {
        book.row(&format!("{what} | {number}"), measure::call(&scene(number), &call, None));
    }
}

fn on_full(book: &mut Book, what: &str, scene: Scene, call: Call, refusal: Option<u32>) {
    book.row(&format!("{what} | 64, full store"), measure::call(&scene, &call, refusal));
}

/// A new file of 100 elements, whose work pointer stands in the middle.
fn middle_of(species: u32, number: usize) -> Scene {
    let next = if species == SIGNED_SPECIES { NextSigned(HERE, 2) } else { Next(HERE, 2) };
    open_file(number, species, 100, 0).after(&vec![next; 50])
}

fn middle(number: usize) -> Scene {
    middle_of(0, number)
}

pub fn write(book: &mut Book) {
    book.heading("one call | records");
    access(book);
    takers(book);
    rows(book, "value of a pointer", ANY, middle, Value(HERE, 2));
    rows(book, "free", ANY, records, Free(0));
    on_full(book, "free", full(), Free(0), None);
    images(book);
    catalogue(book);
}

fn access(book: &mut Book) {
    rows(book, "append", ANY, middle, Write(HERE, 1, 1));
    rows(book, "write through 2", ANY, middle, Write(HERE, 2, 1));
    rows(book, "write through 0", ANY, middle, Write(HERE, 0, 1));
    rows(book, "next through 2", ANY, middle, Next(HERE, 2));
    rows(book, "next through 0", ANY, middle, Next(HERE, 0));
    rows(book, "prev through 2", ANY, middle, Prev(HERE, 2));
    rows(book, "prev through 1", ANY, middle, Prev(HERE, 1));
    for species in [WHOLE_SPECIES, AS_WIDE_AS_SIGNED, SIGNED_SPECIES] {
        for (what, call) in accesses(species) {
            rows(book, &format!("{what}, species {species}"), ANY, |number| middle_of(species, number), call);
        }
    }
}

/// By the kind of call that a file of the species takes.
fn accesses(species: u32) -> [(&'static str, Call); 4] {
    if species == SIGNED_SPECIES {
        return [
            ("append", WriteSigned(HERE, 1, -1)),
            ("write through 2", WriteSigned(HERE, 2, -1)),
            ("next through 2", NextSigned(HERE, 2)),
            ("prev through 2", PrevSigned(HERE, 2)),
        ];
    }
    [
        ("append", Write(HERE, 1, 1)),
        ("write through 2", Write(HERE, 2, 1)),
        ("next through 2", Next(HERE, 2)),
        ("prev through 2", Prev(HERE, 2)),
    ]
}

/// An append after 64 elements of species 5, which fill a segment; and a write through an own pointer at the begin of a record's file.
fn takers(book: &mut Book) {
    let (what, call) = ("append that takes a segment", Write(HERE, 1, 1));
    rows(book, what, ANY, |number| open_file(number, 5, 64, 0), call.clone());
    on_full(book, what, full().after(&[New(HERE, 0)]), call, NO_ROOM);
    let (what, call) = ("write into a shared segment", Write(HERE, 3, 1));
    let opened = [Work(HERE, own()), Pointer(HERE, 0)];
    rows(book, what, SOME, |number| records(number).after(&opened), call.clone());
    on_full(book, what, full().after(&opened), call, NO_ROOM);
}

fn images(book: &mut Book) {
    rows(book, "save", ANY, records, Save);
    on_full(book, "save", full(), Save, None);
    rows(book, "load", ANY, |number| records(number).after(&[Save]), Load);
    on_full(book, "load", full().after(&[Save]), Load, None);
    let old = [Save, Down(SEGMENTS)];
    rows(book, "up", ANY, |number| records(number).after(&old), Up(SEGMENTS));
    on_full(book, "up", full().after(&old), Up(SEGMENTS), None);
    rows(book, "down", ANY, |number| records(number).after(&[Save]), Down(SEGMENTS));
    on_full(book, "down", full().after(&[Save]), Down(SEGMENTS), None);
}

/// Calls that the twin does not have.
fn catalogue(book: &mut Book) {
    rows(book, "new", ANY, records, New(HERE, 0));
    rows(book, "work", SOME, records, Work(HERE, own()));
    rows(book, "read", SOME, records, Read(HERE, own()));
    let opened = |number| records(number).after(&[Work(HERE, own())]);
    rows(book, "close, of a work opening", SOME, opened, Close(HERE));
    let renamed = |number| middle(number).after(&[Rename(HERE, b"another".to_vec())]);
    rows(book, "close, of a new file", NOT_ALL, renamed, Close(HERE));
    rows(book, "abandon", ANY, middle, Abandon(HERE));
}
