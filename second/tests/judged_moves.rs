//! A move judges as a load does, and writes the same bits in other places: told histories and images damaged in each bit,
//! compared with `rows_of_bits`.

mod common;

use common::images::{all_cells, image, poke, ready, record, Way, DOWN, UP};
use common::rows_of_bits::Judge;
use filing::telling::{history, mode::Mode};
use filing::text::answering::Desk;
use filing::text::line::{BufferName, Line};

/// The answer and all cells afterwards, whichever buffers they are.
fn check_move(
    desk: &mut Desk,
    judge: &mut Judge,
    way: Way,
    image: usize,
    other: usize,
    number: u32,
    text: &[u8],
) -> String {
    let (image, other_name) = (BufferName::Image(image), BufferName::Image(other));
    let lent_right = desk.lent(image) == way.from.length() && desk.lent(other_name) == way.to.length();
    let verdict = match lent_right {
        true => judge.judged(way, &desk.cells(image)[..way.from.length()], number),
        false => Err(22),
    };
    let mut wanted = all_cells(desk);
    let image0 = 2;
    let wanted_answer = match verdict {
        Ok(cells) => {
            wanted[image0 + other][..cells.len()].copy_from_slice(&cells);
            "done 0".to_string()
        }
        Err(refusal) => format!("refused {}", refusal),
    };
    assert_eq!(desk.answer(text), Some(wanted_answer.clone()), "{}", String::from_utf8_lossy(text));
    assert!(all_cells(desk) == wanted, "{}: other cells", String::from_utf8_lossy(text));
    wanted_answer
}

/// Every answer comes up, and each is the right one.
fn check_history(seed: u64, count: usize, mode: Mode) {
    let (mut desk, mut judge) = (Desk::new(), Judge::new());
    let mut answers = Vec::new();
    for text in history(seed, count, mode) {
        let (way, image, other, number) = match Line::read(&text) {
            Ok(Line::Up(image, other, number)) => (UP, image, other, number),
            Ok(Line::Down(image, other, number)) => (DOWN, image, other, number),
            _ => {
                desk.answer(&text);
                continue;
            }
        };
        let said = check_move(&mut desk, &mut judge, way, image, other, number, &text);
        answers.push(format!("{} {}", way.word, said));
    }
    for wanted in ["up done 0", "up refused 22", "down done 0", "down refused 22", "down refused 24"] {
        assert!(answers.iter().any(|said| said == wanted), "{:?}, seed {}: no {}", mode, seed, wanted);
    }
}

#[test]
fn moves_that_are_told() {
    for (seed, count, mode) in [(1, 12_000, Mode::Moves), (2, 12_000, Mode::Moves), (3, 8_000, Mode::Damage)] {
        check_history(seed, count, mode);
    }
}

/// Two files with one name, one of them of species 6, in the first place and in the last.
#[test]
fn images_damaged_in_each_bit() {
    let mut files = [(0, record(10, 5, (64, 66), &[5, 6])), (63, record(10, 6, (16_777_213, 16_777_215), &[7]))];
    files[1].1[13] = 3;
    files[1].1[14] = 0;
    for way in [UP, DOWN] {
        let cells = image(way.from, 8, &files);
        let (mut desk, mut judge) = (Desk::new(), Judge::new());
        ready(&mut desk, way, &cells);
        let mut counts = [0; 3];
        let looked_at = [0..1, way.from.cells_of(0), way.from.cells_of(30), way.from.cells_of(63)];
        for cell in looked_at.into_iter().flatten() {
            for bit in 0..32 {
                poke(&mut desk, 0, cell, cells[cell] ^ 1 << bit);
                let line = way.line(8);
                match check_move(&mut desk, &mut judge, way, 0, 1, 8, line.as_bytes()).as_str() {
                    "done 0" => counts[0] += 1,
                    "refused 22" => counts[1] += 1,
                    _ => counts[2] += 1,
                }
            }
            poke(&mut desk, 0, cell, cells[cell]);
        }
        assert!(counts[0] >= 20 && counts[1] >= 1_000, "{}: {:?}", way.word, counts);
    }
}
