//! From what is kept to the numbers of records and openings, and to the tables' cells.

use super::fields::{self, opening as of_opening, record as of_record, NO_SUCH_POINTER, TABLES_LENGTH};
use crate::model::catalogue::Catalogue;
use crate::model::file::File;
use crate::model::opening::Opening;
use crate::model::record::Record;

/// "Unused list places are zero; an unused record is all zero."
pub fn record_numbers(record: Option<&Record>) -> [u32; of_record::COUNT] {
    let mut numbers = [0; of_record::COUNT];
    if let Some(record) = record {
        numbers[of_record::USED] = 1;
        numbers[of_record::NAME].copy_from_slice(&record.name.symbols());
        numbers[of_record::OWNER] = record.owner as u32;
        numbers[of_record::PRIVATE] = u32::from(record.private);
        numbers[of_record::SPECIES] = record.file.species().number();
        numbers[of_record::BEGIN] = record.file.begin();
        numbers[of_record::END] = record.file.end();
        write_list(&mut numbers[of_record::LIST], &record.file);
    }
    numbers
}

/// A closed entry is zero.
pub fn opening_numbers(opening: Option<&Opening>) -> [u32; of_opening::COUNT] {
    let mut numbers = [0; of_opening::COUNT];
    if let Some(opening) = opening {
        numbers[of_opening::OPEN] = 1;
        numbers[of_opening::PLACE] = opening.place.map_or(0, |place| place as u32 + 1);
        numbers[of_opening::PERMIT] = u32::from(opening.permit);
        numbers[of_opening::SPECIES] = opening.file.species().number();
        numbers[of_opening::BEGIN] = opening.file.begin();
        numbers[of_opening::END] = opening.file.end();
        numbers[of_opening::WORK] = opening.work;
        for (number, own) in numbers[of_opening::OWN].iter_mut().zip(opening.own) {
            *number = own.unwrap_or(NO_SUCH_POINTER);
        }
        numbers[of_opening::NAME].copy_from_slice(&opening.name.symbols());
        write_list(&mut numbers[of_opening::LIST], &opening.file);
    }
    numbers
}

fn write_list(list: &mut [u32], file: &File) {
    for (number, segment) in list.iter_mut().zip(file.segments()) {
        *number = u32::from(segment.0);
    }
}

/// All cells of the tables.
pub fn tables_cells(catalogue: &Catalogue) -> Vec<u32> {
    let mut cells = vec![0; TABLES_LENGTH];
    cells[fields::SEGMENTS_CELL] = catalogue.segments as u32;
    for (place, record) in catalogue.records.iter().enumerate() {
        cells[fields::record_cells(place)].copy_from_slice(&record_numbers(record.as_ref()));
    }
    for (user, entry) in fields::all_entries() {
        let opening = catalogue.entries[user][entry].as_ref();
        cells[fields::opening_cells(user, entry)].copy_from_slice(&opening_numbers(opening));
    }
    cells
}
