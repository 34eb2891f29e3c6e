//! Generated histories write numbers that fit, that just fit and that do not, by the calls of both kinds, where other
//! refusals wait too; and every answer is one that the number and the species allow.

mod common;

use common::calls::{call, refusal, Call};
use filing::calls::access;
use filing::model::catalogue::Catalogue;
use filing::model::opening::{BEGIN, END, WORK};
use filing::model::store::Store;
use filing::rules::element::{Element, Kind};
use filing::telling::{history, mode::Mode};
use filing::text::answering::Desk;
use filing::text::line::{BufferName, Line};
use std::collections::BTreeMap;

/// How often each thing was seen.
type Counts = BTreeMap<String, usize>;

/// The least and the greatest number of each species.
const ENDS: [(Element, Element); 7] =
    [(0, 1), (0, 3), (0, 15), (0, 255), (0, 65_535), (0, 4_294_967_295), (-32_768, 32_767)];

fn fits(species: usize, number: Element) -> bool {
    let (least, greatest) = ENDS[species];
    least <= number && number <= greatest
}

fn species_at(catalogue: &Catalogue, user: u32, entry: u32) -> Option<usize> {
    let opening = catalogue.opening(user, entry).ok()?;
    Some(opening.file.species().number() as usize)
}

fn is_a_pointer(catalogue: &Catalogue, user: u32, entry: u32, pointer: u32) -> bool {
    catalogue.opening(user, entry).map_or(false, |opening| opening.pointer(pointer).is_some())
}

fn pointer_word(pointer: u32) -> &'static str {
    match pointer {
        BEGIN => "begin",
        END => "end",
        WORK => "work",
        _ => "own",
    }
}

/// What the same write is answered with a number that every species takes; the cells make no difference to that.
fn answer_to_0(catalogue: &Catalogue, kind: Kind, user: u32, entry: u32, pointer: u32) -> String {
    match access::write(&mut catalogue.clone(), &mut Store::new(), kind, user, entry, pointer, 0) {
        Ok(_) => "done".to_string(),
        Err(refusal) => refusal.number().to_string(),
    }
}

/// What there is to see in a call and its answer, and whether the answer may be.
fn seen(catalogue: &Catalogue, desk: &Desk, call: &Call, said: &str) -> Vec<String> {
    let species = match species_at(catalogue, call.user, call.entry) {
        Some(species) => species,
        None => return Vec::new(),
    };
    // "those refuse species 0 to 5 with 19, and the plain ones refuse species 6 with 19".
    let crossed = (species == 6) != (call.kind == Kind::Signed);
    assert_eq!(crossed, refusal(said) == Some("19"), "{} on species {}: {}", call.word, species, said);
    match (call.word, refusal(said)) {
        _ if crossed => vec![seen_crossed(catalogue, desk, call)],
        ("write", _) => seen_written(catalogue, call, species, said),
        ("writes", Some("23")) => seen_stopped(desk, call, species, said),
        ("next" | "prev", None) => vec![seen_read(call, species, said)],
        _ => Vec::new(),
    }
}

fn seen_crossed(catalogue: &Catalogue, desk: &Desk, call: &Call) -> String {
    let there = match is_a_pointer(catalogue, call.user, call.entry, call.pointer) {
        true => "a pointer",
        false => "no pointer",
    };
    let empty = call.list.map_or(false, |list| desk.lent(BufferName::List(list)) == 0);
    format!("19 {} {:?} through {}{}", call.word, call.kind, there, if empty { " at length 0" } else { "" })
}

fn seen_written(catalogue: &Catalogue, call: &Call, species: usize, said: &str) -> Vec<String> {
    let number = call.number.expect("a write has one");
    let fits = fits(species, number);
    match refusal(said) {
        None => {
            assert!(fits, "species {} takes {}", species, number);
            vec![format!("species {} takes {}", species, number)]
        }
        Some("23") => {
            assert!(!fits, "species {} refuses {}", species, number);
            let otherwise = answer_to_0(catalogue, call.kind, call.user, call.entry, call.pointer);
            let through = format!("23 {:?} through {}", call.kind, pointer_word(call.pointer));
            vec![through, format!("23 {:?} before {}", call.kind, otherwise)]
        }
        Some(_) if fits => Vec::new(),
        Some(earlier) => vec![format!("{} before 23 {:?}", earlier, call.kind)],
    }
}

/// A run stopped at a number that is too wide.
fn seen_stopped(desk: &Desk, call: &Call, species: usize, said: &str) -> Vec<String> {
    let list = BufferName::List(call.list.expect("a run has one"));
    let rest: usize = said.split(' ').nth(1).and_then(|rest| rest.parse().ok()).expect("a rest");
    let stopped_at = desk.lent(list) - rest;
    let stopper = Element::from(desk.cells(list)[stopped_at]);
    assert!(!fits(species, stopper), "species {} refuses {}", species, stopper);
    let place = if stopped_at == 0 { "at once" } else { "in the middle" };
    vec![format!("a run stopped {}", place), format!("a run stopped through {}", pointer_word(call.pointer))]
}

fn seen_read(call: &Call, species: usize, said: &str) -> String {
    let element = said.strip_prefix("done ").and_then(|number| number.parse().ok()).expect("an element");
    assert!(fits(species, element), "species {} gives {}", species, element);
    format!("{:?} calls give {}", call.kind, element)
}

fn count(seed: u64, mode: Mode, counts: &mut Counts) {
    let mut desk = Desk::new();
    for text in history(seed, 20_000, mode) {
        let line = Line::read(&text).ok();
        let catalogue = desk.tables.usable(&desk.store).ok().cloned();
        let said = desk.answer(&text).unwrap_or_default();
        if let (Some(Line::Load(_)), "done 0", Ok(loaded)) = (line, said.as_str(), desk.tables.usable(&desk.store)) {
            if loaded.records.iter().flatten().any(|record| record.file.species().number() == 6) {
                *counts.entry("species 6 loaded".to_string()).or_default() += 1;
            }
        }
        if let (Some(call), Some(catalogue)) = (line.as_ref().and_then(call), catalogue) {
            for thing in seen(&catalogue, &desk, &call, &said) {
                *counts.entry(thing).or_default() += 1;
            }
        }
    }
}

/// What histories of any mode are to show.
fn wanted_always() -> Vec<String> {
    let mut wanted = vec!["species 6 loaded".to_string(), "a run stopped at once".to_string()];
    for number in ["-32768", "32767", "-1", "0"] {
        wanted.push(format!("Signed calls give {}", number));
        wanted.push(format!("species 6 takes {}", number));
    }
    for (species, (least, greatest)) in ENDS.iter().enumerate() {
        wanted.push(format!("species {} takes {}", species, least));
        wanted.push(format!("species {} takes {}", species, greatest));
    }
    for kind in ["Plain", "Signed"] {
        wanted.extend(["begin", "end", "work", "own"].map(|pointer| format!("23 {} through {}", kind, pointer)));
        wanted.extend(["write", "next", "prev"].map(|call| format!("19 {} {} through a pointer", call, kind)));
        wanted.extend(["write", "next", "prev"].map(|call| format!("19 {} {} through no pointer", call, kind)));
        wanted.extend(["done", "9"].map(|otherwise| format!("23 {} before {}", kind, otherwise)));
        wanted.extend([4, 5, 6, 7].map(|number| format!("{} before 23 {}", number, kind)));
    }
    for call in ["writes", "nexts"] {
        for there in ["a pointer", "no pointer"] {
            wanted.push(format!("19 {} Plain through {}", call, there));
            wanted.push(format!("19 {} Plain through {} at length 0", call, there));
        }
    }
    wanted
}

/// What only pokes lead to.
fn wanted_with_pokes() -> Vec<String> {
    let mut wanted = vec!["a run stopped in the middle".to_string()];
    wanted.extend(["begin", "end", "work"].map(|pointer| format!("a run stopped through {}", pointer)));
    for kind in ["Plain", "Signed"] {
        wanted.extend(["10", "8"].map(|otherwise| format!("23 {} before {}", kind, otherwise)));
    }
    wanted
}

fn check(mode: Mode, wanted: Vec<String>) {
    let mut counts = Counts::new();
    (1..=6).for_each(|seed| count(seed, mode, &mut counts));
    let scarce: Vec<_> = wanted.iter().filter(|thing| counts.get(*thing).map_or(true, |&count| count < 5)).collect();
    assert!(scarce.is_empty(), "{:?}: too seldom: {:?}", mode, scarce);
}

#[test]
fn mixed_histories() {
    check(Mode::Mixed, [wanted_always(), wanted_with_pokes()].concat());
}

#[test]
fn calm_histories() {
    check(Mode::Calm, wanted_always());
}
