//! Tidying: with nothing to move, and of scattered catalogues in which more and more is listed and moved.
use crate::book::Book;
use crate::calls::Call::Tidy;
use crate::random::Random;
use crate::scenes::{full, records, scattered, Scene, HELD};
use crate::tables::SEGMENTS;
use crate::twin::SEGMENT_CELLS;
use crate::{measure, proved};

/// Records and how many segments each of them holds.
type Size = (usize, usize);

/// Half of these move.
const EVERY_SECOND: [Size; 4] = [(64, 1), (64, 2), (64, 4), (64, 8)];
const AT_RANDOM: [Size; 4] = [(20, 8), (64, 4), (64, 8), (64, 12)];
/// All of these move; more than half of all segments never can.
const LAST: [Size; 1] = [(64, 8)];

/// How many segments move is what the call itself says.
fn row(book: &mut Book, listed: &str, (records, held): Size, scene: &Scene) {
    let moved = proved::now(&Tidy, &mut scene.now()) / SEGMENT_CELLS as i64;
    let columns = format!("{listed} | {records} | {} | {moved}", records * held);
    book.row(&columns, measure::call(scene, &Tidy, None));
}

/// Which segments are listed: the number of the first one, the second one and so on.
fn rows(book: &mut Book, listed: &str, sizes: &[Size], number: impl Fn(u32) -> u32) {
    for &(records, held) in sizes {
        row(book, listed, (records, held), &scattered(records, held, &number));
    }
}

pub fn write(book: &mut Book) {
    book.heading("tidy: listed are | records | segments listed | moved");
    for number in [0, 20, 64] {
        row(book, "the first", (number, HELD as usize), &records(number));
    }
    row(book, "all", (64, 16), &full());
    let chosen = Random(13).shuffled(SEGMENTS);
    rows(book, "every second", &EVERY_SECOND, |place| 2 * place);
    rows(book, "some at random", &AT_RANDOM, |place| chosen[place as usize]);
    rows(book, "the last", &LAST, |place| SEGMENTS - 1 - place);
}
