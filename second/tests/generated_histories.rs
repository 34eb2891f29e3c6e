//! Generated histories: refusals change nothing, sound tables stay sound, and every refusal that is given is reached.

mod common;

use common::answer;
use filing::cells::fields::TABLES_LENGTH;
use filing::cells::tables::catalogue_of;
use filing::telling::{history, mode::Mode};
use filing::text::answering::Desk;
use filing::text::line::{BufferName, Line};

fn sums(desk: &mut Desk) -> [String; 8] {
    ["store", "tables", "image0", "image1", "image2", "image3", "list0", "list1"]
        .map(|buffer| answer(desk, &format!("sum {}", buffer)))
}

/// The number at which a run was stopped, if the answer is a run's and it was.
fn run_stopped_by(said: &str) -> Option<usize> {
    let words: Vec<&str> = said.split(' ').collect();
    match words[..] {
        ["rest" | "filled", _, "0"] => None,
        ["rest" | "filled", _, number] => Some(number.parse().expect("a number")),
        _ => None,
    }
}

/// Whether this is a run that was stopped before it wrote or filled anything.
fn run_refused_at_once(desk: &Desk, line: &[u8], said: &str) -> bool {
    let reached = said.split(' ').nth(1).and_then(|count| count.parse::<usize>().ok());
    run_stopped_by(said).is_some()
        && match Line::read(line) {
            Ok(Line::Writes(_, _, _, list)) => reached == Some(desk.lent(BufferName::List(list))),
            _ => reached == Some(0),
        }
}

/// "Every refusal leaves store, tables and image buffer as they stood." Bad lines change nothing either.
fn refusals_change_nothing(seed: u64, count: usize, mode: Mode) {
    let mut desk = Desk::new();
    let mut before = sums(&mut desk);
    let mut refused = 0;
    for line in history(seed, count, mode) {
        let said = desk.answer(&line).unwrap_or_default();
        let after = sums(&mut desk);
        if said.starts_with("refused") || said.starts_with('?') || run_refused_at_once(&desk, &line, &said) {
            assert_eq!(before, after, "{}", String::from_utf8_lossy(&line));
            refused += 1;
        }
        before = after;
    }
    assert!(refused > count / 10);
}

#[test]
fn refusals_change_nothing_in_mixed_histories() {
    refusals_change_nothing(11, 6_000, Mode::Mixed);
}

#[test]
fn refusals_change_nothing_in_small_stores() {
    refusals_change_nothing(12, 3_000, Mode::Small);
}

#[test]
fn refusals_change_nothing_among_damage() {
    refusals_change_nothing(13, 3_000, Mode::Damage);
}

#[test]
fn refusals_change_nothing_among_moves() {
    refusals_change_nothing(14, 3_000, Mode::Moves);
}

/// "Every call leaves sound tables sound", and what is kept (elements, free segments, openings) is what the
/// tables' and the store's cells say.
#[test]
fn what_is_kept_is_what_the_cells_say() {
    for (word, mode) in Mode::ALL {
        let mut desk = Desk::new();
        for line in history(21, 3_000, mode) {
            desk.answer(&line);
            if let Ok(catalogue) = desk.tables.usable(&desk.store) {
                let said = catalogue_of(&desk.tables.cells()[..TABLES_LENGTH], &desk.store);
                assert!(said.as_ref() == Ok(catalogue), "{}: {}", word, String::from_utf8_lossy(&line));
            }
        }
    }
}

/// "12 is never given again."
const NEVER_GIVEN: usize = 12;

/// The numbers are 1 to 24.
const NUMBERS: usize = 25;

/// How often each number is the answer to a single call.
fn count_refusals(seed: u64, count: usize, mode: Mode) -> [usize; NUMBERS] {
    let mut desk = Desk::new();
    let mut counts = [0; NUMBERS];
    for line in history(seed, count, mode) {
        let said = desk.answer(&line).unwrap_or_default();
        if let Some(number) = said.strip_prefix("refused ") {
            counts[number.parse::<usize>().expect("a number")] += 1;
        }
    }
    counts
}

#[test]
fn every_refusal_at_least_five_times() {
    for seed in 1..=8 {
        let counts = count_refusals(seed, 20_000, Mode::Mixed);
        let given = (1..NUMBERS).filter(|&number| number != NEVER_GIVEN);
        let scarce: Vec<usize> = given.filter(|&number| counts[number] < 5).collect();
        assert!(scarce.is_empty(), "seed {}: too seldom: {:?}", seed, scarce);
    }
}

#[test]
fn one_number_is_never_given() {
    for (word, mode) in Mode::ALL {
        assert_eq!(count_refusals(41, 6_000, mode)[NEVER_GIVEN], 0, "{}", word);
    }
}

/// The refusals that may stop a run.
const RUN_STOPS: [usize; 12] = [1, 2, 4, 5, 6, 7, 8, 9, 10, 19, 20, 23];

#[test]
fn every_stop_of_a_run_at_least_five_times() {
    for seed in 1..=8 {
        let mut desk = Desk::new();
        let mut counts = [0; NUMBERS];
        for line in history(seed, 20_000, Mode::Mixed) {
            let said = desk.answer(&line).unwrap_or_default();
            if let Some(number) = run_stopped_by(&said) {
                assert!(RUN_STOPS.contains(&number), "{}: {}", String::from_utf8_lossy(&line), said);
                counts[number] += 1;
            }
        }
        let scarce: Vec<usize> = RUN_STOPS.into_iter().filter(|&number| counts[number] < 5).collect();
        assert!(scarce.is_empty(), "seed {}: too seldom: {:?}", seed, scarce);
    }
}

#[test]
fn a_seed_gives_one_history() {
    for (_, mode) in Mode::ALL {
        let once = history(5, 500, mode);
        assert_eq!(once.len(), 500);
        assert_eq!(once, history(5, 500, mode));
        assert_ne!(once, history(6, 500, mode));
        assert!(once.iter().all(|line| !line.contains(&b'\n')));
    }
}
