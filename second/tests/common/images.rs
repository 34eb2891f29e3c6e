//! Images written by hand, in either form, and the two moves between the forms.

use super::{answer, check};
use filing::cells::fields::record as of_record;
use filing::cells::form::{Form, Heading, RecordBits, FORM_1, FORM_2};
use filing::rules::sizes::PLACES;
use filing::text::answering::Desk;
use filing::text::line::BufferName;

/// One of the two moves; image 0 is moved to image 1.
#[derive(Clone, Copy)]
pub struct Way {
    pub word: &'static str,
    pub from: Form,
    pub to: Form,
}

pub const UP: Way = Way { word: "up", from: FORM_1, to: FORM_2 };
pub const DOWN: Way = Way { word: "down", from: FORM_2, to: FORM_1 };

impl Way {
    pub fn line(&self, segments_there: u32) -> String {
        format!("{} 0 1 {}", self.word, segments_there)
    }
}

pub type Numbers = [u32; of_record::COUNT];

/// A private record of user 2 with this one letter as its name.
pub fn record(letter: u32, species: u32, (begin, end): (u32, u32), segments: &[u32]) -> Numbers {
    let mut numbers = [0; of_record::COUNT];
    numbers[of_record::USED] = 1;
    numbers[of_record::NAME].fill(63);
    numbers[of_record::NAME.start] = letter;
    numbers[of_record::OWNER] = 2;
    numbers[of_record::PRIVATE] = 1;
    numbers[of_record::SPECIES] = species;
    numbers[of_record::BEGIN] = begin;
    numbers[of_record::END] = end;
    for (place, &segment) in of_record::LIST.zip(segments) {
        numbers[place] = segment;
    }
    numbers
}

/// The cells of an image with these records.
pub fn image(form: Form, segments: u32, records: &[(usize, Numbers)]) -> Vec<u32> {
    let mut cells = vec![0; form.length()];
    cells[0] = Heading { form: form.number, segments, zero_bits: 0 }.cell();
    for (place, numbers) in records {
        assert!(*place < PLACES);
        let packed = form.packed_record(&RecordBits::with_zero_bits(*numbers));
        cells[form.cells_of(*place)].copy_from_slice(&packed);
    }
    cells
}

pub fn lend(desk: &mut Desk, image: usize, length: usize) {
    check(desk, &[(&format!("lend image{} {}", image, length), &format!("lent {}", length))]);
}

pub fn poke(desk: &mut Desk, image: usize, cell: usize, value: u32) {
    check(desk, &[(&format!("poke image{} {} {}", image, cell, value), &format!("cell {}", value))]);
}

/// Lends so many cells of an image buffer and puts them there.
pub fn put(desk: &mut Desk, image: usize, cells: &[u32]) {
    lend(desk, image, cells.len());
    cells.iter().enumerate().for_each(|(cell, &value)| poke(desk, image, cell, value));
}

/// No cell of the buffer is zero, nor like its neighbour.
pub fn soil(desk: &mut Desk, image: usize, lent: usize) {
    lend(desk, image, lent);
    (0..1024).for_each(|cell| poke(desk, image, cell, 0xA5A5_0000 + cell as u32));
}

pub fn cells_of(desk: &Desk, image: usize) -> Vec<u32> {
    desk.cells(BufferName::Image(image)).into_owned()
}

/// All cells that there are but those of the lists.
pub fn all_cells(desk: &Desk) -> Vec<Vec<u32>> {
    let images = (0..4).map(BufferName::Image);
    let buffers = [BufferName::Store, BufferName::Tables].into_iter().chain(images);
    buffers.map(|buffer| desk.cells(buffer).into_owned()).collect()
}

/// These cells in image 0, and image 1 lent as the move wants it, full of others.
pub fn ready(desk: &mut Desk, way: Way, cells: &[u32]) {
    put(desk, 0, cells);
    soil(desk, 1, way.to.length());
}

/// Refused, and nothing is written anywhere.
pub fn check_refused(desk: &mut Desk, line: &str, wanted: &str) {
    let before = all_cells(desk);
    assert_eq!(answer(desk, line), wanted, "{}", line);
    assert!(all_cells(desk) == before, "{}: something is written", line);
}

/// Done: image 1 has these cells, and nothing else is written.
pub fn check_done(desk: &mut Desk, line: &str, wanted: &[u32]) {
    let mut before = all_cells(desk);
    assert_eq!(answer(desk, line), "done 0", "{}", line);
    let image1 = 3;
    before[image1][..wanted.len()].copy_from_slice(wanted);
    assert!(all_cells(desk) == before, "{}: other cells", line);
}
