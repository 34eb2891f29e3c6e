//! Generated histories come to the end of positions in every way, offer images that are wrong in one thing alone, and put
//! work openings far away from their records.

mod common;

use common::calls::{call, refusal, Call};
use filing::cells::fields::{all_entries, opening_cells, record_cells};
use filing::cells::fields::{opening as of_opening, record as of_record};
use filing::cells::form::Heading;
use filing::cells::image::{catalogue_of, SAVED_FORM, SAVED_LENGTH};
use filing::model::catalogue::Catalogue;
use filing::model::opening::{BEGIN, END};
use filing::rules::sizes::PLACES;
use filing::rules::species::Species;
use filing::telling::{history, mode::Mode};
use filing::text::answering::Desk;
use filing::text::line::{BufferName, Line};
use std::collections::BTreeMap;

/// How often each thing was seen.
type Counts = BTreeMap<String, usize>;

const LAST: u32 = 4_294_967_295;
const OLD_LAST: u32 = 16_777_215;
const OLD_STRETCHES: u32 = 262_144;

fn value(catalogue: &Catalogue, call: &Call) -> Option<u32> {
    catalogue.opening(call.user, call.entry).ok()?.pointer(call.pointer)
}

/// A call at one of the two limits, where its pointer stood.
fn seen_call(before: &Catalogue, call: &Call, said: &str) -> Option<String> {
    let stood = value(before, call)?;
    let limits = [OLD_LAST, LAST - 1, LAST];
    if !limits.contains(&stood) {
        return None;
    }
    let pointer = match call.pointer {
        BEGIN => "begin",
        END => "end",
        _ => "another",
    };
    let answer = refusal(said).map_or("done".to_string(), |number| format!("refused {}", number));
    Some(format!("{} through {} at {}: {}", call.word, pointer, stood, answer))
}

/// What a refused image is like without the one thing that may be wrong with it.
fn seen_image(desk: &Desk, image: usize, said: &str) -> Option<String> {
    let buffer = BufferName::Image(image);
    let (cells, lent) = (desk.cells(buffer), desk.lent(buffer));
    let form = Heading::of_cell(cells[0]).form;
    match said {
        "refused 22" if lent != SAVED_LENGTH => Some(format!("{} cells of form {} refused", lent, form)),
        "refused 22" => seen_one_fault(desk, &cells[..lent]),
        "done 0" => {
            let catalogue = desk.tables.usable(&desk.store).ok()?;
            let far = catalogue.records.iter().flatten().map(|record| record.file.end()).max()?;
            let limit = [LAST, LAST - 1, OLD_LAST + 1].into_iter().find(|&limit| far >= limit)?;
            Some(format!("loaded with an end of {} or more", limit))
        }
        _ => None,
    }
}

fn seen_one_fault(desk: &Desk, cells: &[u32]) -> Option<String> {
    let heading = Heading::of_cell(cells[0]);
    let mut mended = cells.to_vec();
    mended[0] = Heading { form: SAVED_FORM.number, ..heading }.cell();
    if catalogue_of(SAVED_FORM, &mended, &desk.store).is_ok() {
        return Some(format!("form {} alone refused", heading.form));
    }
    let faulty =
        (0..PLACES).find(|&place| SAVED_FORM.unpacked_record(&cells[SAVED_FORM.cells_of(place)]).spare != 0)?;
    let mut record = SAVED_FORM.unpacked_record(&cells[SAVED_FORM.cells_of(faulty)]);
    record.spare = 0;
    mended[SAVED_FORM.cells_of(faulty)].copy_from_slice(&SAVED_FORM.packed_record(&record));
    let used = record.numbers[of_record::USED] == 1;
    match catalogue_of(SAVED_FORM, &mended, &desk.store) {
        Ok(_) => Some(format!("spare bits alone refused in a record that is {}", if used { "used" } else { "unused" })),
        Err(_) => None,
    }
}

/// Whether an opening lists its record's first segment at a stretch that is a multiple of 262,144 away.
fn lies_apart(cells: &[u32]) -> bool {
    all_entries().any(|(user, entry)| {
        let opening = &cells[opening_cells(user, entry)];
        let place = (opening[of_opening::PLACE] as usize).checked_sub(1).filter(|&place| place < PLACES);
        let record = match place {
            Some(place) => &cells[record_cells(place)],
            None => return false,
        };
        let stretch = |begin: u32| Some(Species::from_number(record[of_record::SPECIES])?.stretch_of(begin.max(1)));
        let stretches = (stretch(record[of_record::BEGIN]), stretch(opening[of_opening::BEGIN]));
        let one_segment = record[of_record::LIST.start] == opening[of_opening::LIST.start];
        match stretches {
            (Some(one), Some(other)) => one_segment && one != other && one.abs_diff(other) % OLD_STRETCHES == 0,
            _ => false,
        }
    })
}

fn seen(desk: &Desk, before: Option<&Catalogue>, line: &Line, said: &str) -> Option<String> {
    match (line, before) {
        (Line::Load(image), _) => seen_image(desk, *image, said),
        (Line::Free(_), None) => match lies_apart(&desk.tables.cells()) {
            true => Some("a work opening far from its record".to_string()),
            false => None,
        },
        (_, Some(before)) => seen_call(before, &call(line)?, said),
        _ => None,
    }
}

fn count(seed: u64, counts: &mut Counts) {
    let mut desk = Desk::new();
    for text in history(seed, 20_000, Mode::Mixed) {
        let before = desk.tables.usable(&desk.store).ok().cloned();
        let said = desk.answer(&text).unwrap_or_default();
        let thing = Line::read(&text).ok().and_then(|line| seen(&desk, before.as_ref(), &line, &said));
        if let Some(thing) = thing {
            *counts.entry(thing).or_default() += 1;
        }
    }
}

const WANTED: [&str; 25] = [
    "write through end at 16777215: done",
    "write through end at 4294967294: done",
    "write through end at 4294967295: refused 10",
    "writes through end at 4294967294: refused 10",
    "writes through end at 4294967295: refused 10",
    "write through begin at 4294967294: done",
    "write through another at 4294967294: done",
    "write through another at 4294967295: refused 7",
    "next through begin at 4294967294: done",
    "next through another at 4294967294: done",
    "next through another at 4294967295: refused 7",
    "prev through end at 4294967295: done",
    "prev through another at 4294967295: done",
    "nexts through another at 4294967295: refused 7",
    "897 cells of form 1 refused",
    "897 cells of form 2 refused",
    "960 cells of form 2 refused",
    "962 cells of form 2 refused",
    "form 1 alone refused",
    "spare bits alone refused in a record that is used",
    "spare bits alone refused in a record that is unused",
    "loaded with an end of 16777216 or more",
    "loaded with an end of 4294967294 or more",
    "loaded with an end of 4294967295 or more",
    "a work opening far from its record",
];

#[test]
fn the_end_of_positions() {
    let mut counts = Counts::new();
    (1..=6).for_each(|seed| count(seed, &mut counts));
    let scarce: Vec<_> = WANTED.iter().filter(|&&thing| counts.get(thing).map_or(true, |&count| count < 5)).collect();
    assert!(scarce.is_empty(), "too seldom: {:?} in {:#?}", scarce, counts);
}
