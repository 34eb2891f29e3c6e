//! What every call pays for, and what a call pays that takes a segment: soundness, the free count, the lowest free segment.
use crate::book::Book;
use crate::measure::{least, opaque, Figures, Turns};
use crate::proved::{lengths_before, Build, BEFORE, NOW};
use crate::tables::{compact, scattered, CELLS};
use crate::twin;

/// What a build, or the twin, says of the tables.
type Decision = fn(&Build, &[u32], usize) -> u32;
type Twins = fn(&[u32]) -> u32;

fn sound(tables: &[u32]) -> u32 {
    u32::from(twin::sound(tables, CELLS))
}

/// The exports decide soundness first, so the twin does too.
fn free_count(tables: &[u32]) -> u32 {
    if twin::sound(tables, CELLS) {
        return twin::free_count(tables);
    }
    0
}

/// The number of segments where none is free, as the exports say it.
fn lowest_free(tables: &[u32]) -> u32 {
    if twin::sound(tables, CELLS) {
        return twin::lowest_free(tables).unwrap_or(tables[0]);
    }
    0
}

fn lowest_free_by_search(tables: &[u32]) -> u32 {
    if twin::sound(tables, CELLS) {
        return twin::lowest_free_by_search(tables).unwrap_or(tables[0]);
    }
    0
}

fn again<'a>(tables: &'a [u32], decide: impl Fn(&[u32]) -> u32 + 'a) -> Turns<'a> {
    Box::new(move |turns| {
        for _ in 0..turns {
            opaque(decide(opaque(tables)));
        }
    })
}

/// The earlier build is left out where it says something else.
fn row(book: &mut Book, what: &str, tables: &[u32], decision: Decision, twins: Twins) {
    let answer = decision(&NOW, tables, CELLS);
    assert_eq!(answer, twins(tables), "proved code and twin say different things: {what}");
    let earlier = lengths_before().map(|(length, _)| &tables[..length.min(tables.len())]);
    let earlier = earlier.filter(|tables| decision(&BEFORE, tables, CELLS) == answer);
    let times = least([
        Some(again(tables, move |tables| decision(&NOW, tables, CELLS))),
        earlier.map(|tables| again(tables, move |tables| decision(&BEFORE, tables, CELLS))),
        Some(again(tables, twins)),
    ]);
    book.row(what, Figures { times: times.to_vec(), elements: None });
}

pub fn write(book: &mut Book) {
    book.heading("decision");
    let all: Vec<_> = compact().into_iter().chain(scattered()).collect();
    for (what, tables) in &all {
        row(book, &format!("sound: {what}"), tables, Build::sound, sound);
    }
    for (what, tables) in &all {
        row(book, &format!("sound, free count: {what}"), tables, Build::free_count, free_count);
    }
    for (what, tables) in &all {
        row(book, &format!("sound, lowest free: {what}"), tables, Build::lowest_free, lowest_free);
    }
    for (what, tables) in &scattered() {
        let what = format!("the same, the twin in the same form: {what}");
        row(book, &what, tables, Build::lowest_free, lowest_free_by_search);
    }
}
