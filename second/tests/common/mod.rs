//! Histories with the answers that are wanted.

use filing::text::answering::Desk;

#[allow(dead_code)]
pub mod asked_moves;
#[allow(dead_code)]
pub mod bad_lines;
#[allow(dead_code)]
pub mod calls;
#[allow(dead_code)]
pub mod far;
#[allow(dead_code)]
pub mod images;
#[allow(dead_code)]
pub mod lists;
#[allow(dead_code)]
pub mod rows_of_bits;
#[allow(dead_code)]
pub mod scattered;

/// Says each line and compares its answer.
#[allow(dead_code)]
pub fn check(desk: &mut Desk, history: &[(&str, &str)]) {
    for (line, wanted) in history {
        assert_eq!(desk.answer(line.as_bytes()).as_deref(), Some(*wanted), "{}", line);
    }
}

/// Says one line as often as asked; the answer is the same each time.
#[allow(dead_code)]
pub fn repeat(desk: &mut Desk, times: usize, line: &str, wanted: &str) {
    for _ in 0..times {
        check(desk, &[(line, wanted)]);
    }
}

/// A desk after a fresh start over a store of so many cells.
#[allow(dead_code)]
pub fn fresh_desk(store_cells: usize) -> Desk {
    let mut desk = Desk::new();
    let lend = format!("lend store {}", store_cells);
    let lent = format!("lent {}", store_cells);
    check(&mut desk, &[(&lend, &lent), ("fresh", "done 0")]);
    desk
}

/// The answer to a line that has one.
#[allow(dead_code)]
pub fn answer(desk: &mut Desk, line: &str) -> String {
    desk.answer(line.as_bytes()).expect("the line is answered")
}
