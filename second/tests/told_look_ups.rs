//! Generated histories ask for names that nobody has, and for those that the asking user, others or several have, for
//! reading and for work, and the answers are those that look-up allows.

use filing::model::catalogue::Catalogue;
use filing::rules::name::Name;
use filing::telling::{history, mode::Mode};
use filing::text::answering::Desk;
use filing::text::line::Line;
use std::collections::BTreeMap;

#[derive(Clone, Copy, PartialEq, Eq, PartialOrd, Ord, Debug)]
enum Own {
    None,
    Private,
    Public,
}

/// Others' private files; an open one is there to see whether "not now" is answered for it.
#[derive(Clone, Copy, PartialEq, Eq, PartialOrd, Ord, Debug)]
enum Hidden {
    None,
    Closed,
    Open,
}

/// Who has a file of the name that is asked for.
#[derive(Clone, Copy, PartialEq, Eq, PartialOrd, Ord, Debug)]
struct Situation {
    for_work: bool,
    own: Own,
    anothers_public: bool,
    hidden: Hidden,
}

/// How often each situation comes with each answer.
type Counts = BTreeMap<(Situation, String), usize>;

/// The user, the name and whether work is wanted, where an opening gets as far as look-up.
fn looked_up(catalogue: &Catalogue, line: &Line) -> Option<(usize, Name, bool)> {
    let (user, entry, name, for_work) = match *line {
        Line::Work(user, entry, name) => (user, entry, name, true),
        Line::Read(user, entry, name) => (user, entry, name, false),
        _ => return None,
    };
    let (user, entry) = Catalogue::entry(user, entry).ok()?;
    match catalogue.entries[user][entry] {
        None if !name.is_scratch() => Some((user, name, for_work)),
        _ => None,
    }
}

fn situation(catalogue: &Catalogue, user: usize, name: Name, for_work: bool) -> Situation {
    let mut found = Situation { for_work, own: Own::None, anothers_public: false, hidden: Hidden::None };
    for (place, record) in catalogue.records.iter().enumerate() {
        let open = catalogue.openings().any(|opening| opening.place == Some(place));
        match record {
            Some(record) if record.name == name => match (record.owner == user, record.private) {
                (true, true) => found.own = Own::Private,
                (true, false) => found.own = Own::Public,
                (false, false) => found.anothers_public = true,
                (false, true) => found.hidden = found.hidden.max(if open { Hidden::Open } else { Hidden::Closed }),
            },
            _ => {}
        }
    }
    found
}

/// The answers that a situation may get: what is hidden makes no difference.
fn allowed(situation: &Situation) -> &'static [&'static str] {
    match (situation.own, situation.anothers_public, situation.for_work) {
        (Own::None, false, _) => &["refused 11"],
        (Own::None, true, true) => &["refused 13"],
        _ => &["done 0", "refused 14"],
    }
}

/// All that there can be: no two public files have one name.
fn all_situations() -> Vec<Situation> {
    let files =
        [(Own::None, false), (Own::None, true), (Own::Private, false), (Own::Private, true), (Own::Public, false)];
    let mut all = Vec::new();
    for (own, anothers_public) in files {
        for hidden in [Hidden::None, Hidden::Closed, Hidden::Open] {
            for for_work in [false, true] {
                all.push(Situation { for_work, own, anothers_public, hidden });
            }
        }
    }
    all
}

/// What is asked for by this line, if it gets as far as look-up.
fn asked(desk: &Desk, text: &[u8]) -> Option<Situation> {
    let catalogue = desk.tables.usable(&desk.store).ok()?;
    let (user, name, for_work) = looked_up(catalogue, &Line::read(text).ok()?)?;
    Some(situation(catalogue, user, name, for_work))
}

fn count_look_ups(seed: u64, mode: Mode, counts: &mut Counts) {
    let mut desk = Desk::new();
    for text in history(seed, 20_000, mode) {
        let asked = asked(&desk, &text);
        let said = desk.answer(&text).unwrap_or_default();
        if let Some(situation) = asked {
            assert!(allowed(&situation).contains(&said.as_str()), "{:?}: {}", situation, said);
            *counts.entry((situation, said)).or_default() += 1;
        }
    }
}

#[test]
fn every_situation_with_every_answer() {
    for mode in [Mode::Mixed, Mode::Calm] {
        let mut counts = Counts::new();
        (1..=8).for_each(|seed| count_look_ups(seed, mode, &mut counts));
        for situation in all_situations() {
            for said in allowed(&situation) {
                let count = counts.get(&(situation, said.to_string())).copied().unwrap_or(0);
                assert!(count >= 5, "{:?}, {}: {:?} only {} times", mode, said, situation, count);
            }
        }
    }
}
