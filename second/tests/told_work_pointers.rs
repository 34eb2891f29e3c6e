//! Generated histories use the work pointer of an old file opened for work mostly from the begin on, where a reset puts
//! it, and sometimes at the end, where it starts.

use filing::model::catalogue::Catalogue;
use filing::model::opening::WORK;
use filing::telling::{history, mode::Mode};
use filing::text::answering::Desk;
use filing::text::line::Line;
use std::collections::{BTreeMap, BTreeSet};

const WORDS: [&str; 5] = ["write", "next", "prev", "writes", "nexts"];

/// How often each word comes first at a place.
type Counts = BTreeMap<(Place, &'static str), usize>;

#[derive(Clone, Copy, PartialEq, Eq, PartialOrd, Ord, Debug)]
enum Place {
    Begin,
    End,
}

/// The word of an access through the work pointer, signed or not, with its user and entry.
fn access_through_work(line: &Line) -> Option<(&'static str, u32, u32)> {
    match *line {
        Line::Write(_, user, entry, WORK, _) => Some(("write", user, entry)),
        Line::Next(_, user, entry, WORK) => Some(("next", user, entry)),
        Line::Prev(_, user, entry, WORK) => Some(("prev", user, entry)),
        Line::Writes(user, entry, WORK, _) => Some(("writes", user, entry)),
        Line::Nexts(user, entry, WORK, _) => Some(("nexts", user, entry)),
        _ => None,
    }
}

/// Where the work pointer stands in a file that has elements, so that begin and end are two places.
fn place_of_work(catalogue: &Catalogue, user: u32, entry: u32) -> Option<Place> {
    let opening = catalogue.opening(user, entry).ok()?;
    let (begin, end) = (opening.file.begin(), opening.file.end());
    match opening.work {
        _ if begin == end => None,
        work if work == begin => Some(Place::Begin),
        work if work == end => Some(Place::End),
        _ => None,
    }
}

/// Which words come first through the work pointer after a work opening of an old file, and where.
fn count_first_accesses(seed: u64, counts: &mut Counts) {
    let mut desk = Desk::new();
    let mut untouched = BTreeSet::new();
    for text in history(seed, 20_000, Mode::Mixed) {
        let line = Line::read(&text).ok();
        if let Some((word, user, entry)) = line.as_ref().and_then(access_through_work) {
            let place = desk.tables.usable(&desk.store).ok().and_then(|said| place_of_work(said, user, entry));
            if let (true, Some(place)) = (untouched.remove(&(user, entry)), place) {
                *counts.entry((place, word)).or_default() += 1;
            }
        }
        let said = desk.answer(&text).unwrap_or_default();
        match line {
            Some(Line::Work(user, entry, _)) if said == "done 0" => untouched.insert((user, entry)),
            Some(Line::New(user, entry, _) | Line::Read(user, entry, _)) => untouched.remove(&(user, entry)),
            _ => false,
        };
    }
}

#[test]
fn from_the_begin_and_at_the_end() {
    let mut counts = Counts::new();
    (1..=8).for_each(|seed| count_first_accesses(seed, &mut counts));
    let count = |place, word| counts.get(&(place, word)).copied().unwrap_or(0);
    for word in WORDS {
        assert!(count(Place::Begin, word) >= 5 && count(Place::End, word) >= 5, "{} too seldom: {:?}", word, counts);
    }
    let all_at = |place| -> usize { WORDS.iter().map(|&word| count(place, word)).sum() };
    assert!(all_at(Place::Begin) > all_at(Place::End), "{:?}", counts);
}
