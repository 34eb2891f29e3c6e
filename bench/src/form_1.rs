//! Document 01's catalogue image, bit by bit: what a move down must write, and no load takes.
use crate::twin::layout::{record, records};

const FORM: u32 = 1;

/// "used 1, name 12 x 6, owner 3, private 1, species 3, begin 24, end 24, then 32 segment numbers of 10 bits"
fn width(field: usize) -> u32 {
    match field {
        record::USED | record::PRIVATE => 1,
        record::OWNER | record::SPECIES => 3,
        record::BEGIN | record::END => 24,
        _ if record::NAME.contains(&field) => 6,
        _ => 10,
    }
}

fn bits(width: u32, number: u32) -> impl Iterator<Item = u32> {
    (0..width).rev().map(move |place| number >> place & 1)
}

/// The image of sound tables; of a begin and an end that are too wide for it, their low bits.
pub fn image(tables: &[u32]) -> Vec<u32> {
    let first = [(8, FORM), (11, tables[0]), (13, 0)];
    let fields = records(tables).flat_map(|cells| (0..).zip(cells).map(|(field, &number)| (width(field), number)));
    let row: Vec<u32> = first.into_iter().chain(fields).flat_map(|(width, number)| bits(width, number)).collect();
    row.chunks(32).map(|cell| cell.iter().fold(0, |cell, bit| cell << 1 | bit)).collect()
}
