//! How the cost of an append and of a next grows: with the file's length, with openings, with records; and that of runs with their length.
use crate::book::Book;
use crate::calls::Call::{self, FillRun, Next, Write};
use crate::measure;
use crate::runs::write_run;
use crate::scenes::{open_file, HERE, LONGEST_RUN};

fn rows(book: &mut Book, what: &str, call: Call) {
    for records in [0, 20, 64] {
        for openings in [1, 32] {
            // of species 0, which has the most elements in a segment
            for elements in [1, 60_000] {
                let times = measure::call(&open_file(records, 0, elements, openings - 1), &call, None);
                book.row(&format!("{what} | {records} | {openings} | {elements}"), times);
            }
        }
    }
}

pub fn write(book: &mut Book) {
    book.heading("one call | records | openings | elements");
    rows(book, "append", Write(HERE, 1, 1));
    rows(book, "next", Next(HERE, 2));
    book.run_heading("run, of species 0 | elements | records");
    for records in [0, 64] {
        runs(book, records);
    }
}

/// Appends to a file of one element, and fills from a long one.
fn runs(book: &mut Book, records: usize) {
    for elements in [1, 1_000, 10_000, LONGEST_RUN] {
        let figures = measure::run(&open_file(records, 0, 1, 0), &write_run(0, 1, elements), elements, false);
        book.row(&format!("append | {elements} | {records}"), figures);
    }
    for elements in [1, 1_000, 10_000, LONGEST_RUN] {
        let scene = open_file(records, 0, LONGEST_RUN as u32, 0);
        let figures = measure::run(&scene, &FillRun(HERE, 2, elements), elements, false);
        book.row(&format!("fill through 2 | {elements} | {records}"), figures);
    }
}
