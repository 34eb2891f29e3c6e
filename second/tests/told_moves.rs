//! Generated histories move images both ways, and offer ones that are wrong in one thing alone, or too wide, or both.

mod common;

use common::asked_moves::asked;
use filing::telling::{history, mode::Mode};
use filing::text::answering::Desk;
use filing::text::line::{BufferName, Line};
use std::collections::BTreeMap;
use std::ops::RangeInclusive;

/// How often each thing was seen.
type Counts = BTreeMap<String, usize>;

fn count(seed: u64, mode: Mode) -> Counts {
    let mut desk = Desk::new();
    let mut counts = Counts::new();
    let mut last_sound: BTreeMap<(&str, usize), Vec<u32>> = BTreeMap::new();
    for text in history(seed, 20_000, mode) {
        let line = Line::read(&text).ok();
        let asked = line.and_then(|line| asked(&desk, &line));
        let said = desk.answer(&text).unwrap_or_default();
        let (asked, image, other) = match (asked, line) {
            (Some(asked), Some(Line::Up(image, other, _) | Line::Down(image, other, _))) => (asked, image, other),
            _ => continue,
        };
        let things = match said.as_str() {
            "done 0" => asked.done(&desk.cells(BufferName::Image(other))),
            "refused 24" => asked.too_wide(),
            "refused 22" => asked.unfit(last_sound.get(&(asked.word, image))).into_iter().collect(),
            _ => panic!("{}: {}", String::from_utf8_lossy(&text), said),
        };
        *counts.entry(format!("{} {}", asked.word, said)).or_default() += 1;
        for thing in things {
            *counts.entry(format!("{} {}", asked.word, thing)).or_default() += 1;
        }
        if said != "refused 22" {
            last_sound.insert((asked.word, image), asked.cells);
        }
    }
    counts
}

fn check_counts(counts: &Counts, least: usize, wanted: &[&str], of: &str) {
    let scarce: Vec<_> =
        wanted.iter().filter(|&&thing| counts.get(thing).map_or(true, |&count| count < least)).collect();
    assert!(scarce.is_empty(), "{}: too seldom: {:?} in {:#?}", of, scarce, counts);
}

/// Each answer that there is.
const ANSWERS: [&str; 5] = ["up done 0", "up refused 22", "down done 0", "down refused 22", "down refused 24"];

/// What every history comes to that is not calm.
const WANTED: [&str; 15] = [
    "up done with species 6",
    "down done with species 6",
    "up done with an end of 16777215",
    "down done with an end of 16777215",
    "up done for just so many segments",
    "down done for just so many segments",
    "up done for cells that 32 bits do not count",
    "down done for cells that 32 bits do not count",
    "up done beside unfit tables",
    "down done beside unfit tables",
    "up done over other cells",
    "down done over other cells",
    "down too wide by one",
    "down too wide by the end alone",
    "down too wide by begin and end",
];

/// Over some seeds; with each of them alone every answer comes at least so often.
fn count_all(seeds: RangeInclusive<u64>, mode: Mode, least: usize, answers: &[&str]) -> Counts {
    let mut counts = Counts::new();
    for seed in seeds {
        let of_seed = count(seed, mode);
        check_counts(&of_seed, least, answers, &format!("{:?}, seed {}", mode, seed));
        of_seed.into_iter().for_each(|(thing, count)| *counts.entry(thing).or_default() += count);
    }
    counts
}

#[test]
fn moves_in_mixed_histories() {
    let counts = count_all(1..=6, Mode::Mixed, 5, &ANSWERS);
    check_counts(&counts, 20, &WANTED, "mixed");
    check_counts(&counts, 200, &["up done 0", "down done 0"], "mixed");
}

#[test]
fn moves_in_histories_of_other_modes() {
    for mode in [Mode::Small, Mode::Edge, Mode::Damage] {
        let counts = count_all(1..=3, mode, 5, &ANSWERS);
        check_counts(&counts, 4, &WANTED, &format!("{:?}", mode));
    }
}

/// What is unfit by itself, both ways, and besides in an image that is too wide.
const UNFIT: [&str; 13] = [
    "the length of the image",
    "the length of the other",
    "no segments there",
    "one segment less",
    "fewer segments",
    "the form number",
    "the number of segments",
    "a zero bit of cell 0",
    "an unused record",
    "a name",
    "a begin",
    "an end",
    "a list",
];

/// What is unfit by itself only.
const ALONE: [&str; 5] = ["both lengths", "the used bit", "an owner", "a privacy", "a species"];

/// What is unfit only in an image that is too wide: "22 comes before 24."
const BESIDES: [&str; 2] = ["a bit at a used record's end", "a bit at an unused record's end"];

const WANTED_IN_MOVES: [&str; 10] = [
    "down unfit by a bit at a used record's end",
    "down unfit by a bit at an unused record's end",
    "up done for 4294967295 segments",
    "down done for 4294967295 segments",
    "up done with 32 segments in a file",
    "down done with 32 segments in a file",
    "up done without records",
    "down done without records",
    "down too wide though empty",
    "down too wide beside unfit tables",
];

#[test]
fn every_kind_in_histories_of_moves() {
    let counts = count_all(1..=4, Mode::Moves, 50, &ANSWERS);
    let alone = UNFIT.iter().chain(&ALONE);
    let alone = alone.flat_map(|thing| ["up", "down"].map(|word| format!("{} unfit by {}", word, thing)));
    let besides = UNFIT.iter().chain(&BESIDES);
    let besides = besides.map(|thing| format!("down unfit by {}, though too wide", thing));
    for (least, thing) in alone.map(|thing| (10, thing)).chain(besides.map(|thing| (4, thing))) {
        check_counts(&counts, least, &[&thing], "moves");
    }
    check_counts(&counts, 10, &WANTED_IN_MOVES, "moves");
    check_counts(&counts, 80, &WANTED, "moves");
}

/// A calm history moves what it has saved, and there nothing is wide.
#[test]
fn moves_in_calm_histories() {
    let answers = ["up done 0", "down done 0", "up refused 22", "down refused 22"];
    let counts = count_all(1..=3, Mode::Calm, 5, &answers);
    check_counts(&counts, 5, &["up done for just so many segments", "up done with species 6"], "calm");
    assert_eq!(counts.get("down refused 24"), None);
}
