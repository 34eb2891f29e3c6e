//! "Sound tables": whether the records and openings agree with each other, and the catalogue that they say.

use super::outline::{FileOutline, OpeningOutline, RecordOutline, Unsound};
use crate::model::catalogue::Catalogue;
use crate::model::file::File;
use crate::model::opening::Opening;
use crate::model::record::Record;
use crate::model::store::Store;
use crate::rules::sizes::{ENTRIES, MOST_SEGMENTS};

/// All records by place and all openings by `4 user + entry`, each sound by itself.
pub struct Outlines {
    pub segments: usize,
    pub records: Vec<Option<RecordOutline>>,
    pub openings: Vec<Option<OpeningOutline>>,
}

impl Outlines {
    /// Whether the whole is sound, but for the number of segments, which others look at.
    pub fn check(&self) -> Result<(), Unsound> {
        let sound = self.name_rules_hold() && self.openings_fit_their_records() && self.lists_are_distinct();
        if sound {
            Ok(())
        } else {
            Err(Unsound)
        }
    }

    /// "No two records of one owner have one name; no two public records have one name."
    fn name_rules_hold(&self) -> bool {
        let records: Vec<&RecordOutline> = self.records.iter().flatten().collect();
        records.iter().enumerate().all(|(index, one)| {
            records[index + 1..].iter().all(|other| {
                let one_owner = one.owner == other.owner;
                let both_public = !one.private && !other.private;
                one.name != other.name || !(one_owner || both_public)
            })
        })
    }

    fn openings_fit_their_records(&self) -> bool {
        self.openings.iter().flatten().all(|opening| self.fits_its_record(opening))
    }

    /// "each opening names one existing record, or none and then has the work permit".
    fn fits_its_record(&self, opening: &OpeningOutline) -> bool {
        let place = match opening.place {
            Some(place) => place,
            None => return opening.permit,
        };
        let record = match &self.records[place] {
            Some(record) => record,
            None => return false,
        };
        let own = record.owner == opening.user;
        if opening.permit {
            // "a work opening's record is its user's own, of the same species, and has no other opening".
            let openings_of_it = self.openings.iter().flatten().filter(|other| other.place == Some(place));
            own && record.file.species == opening.file.species && openings_of_it.count() == 1
        } else {
            // "a read opening's record is public or its user's own, and the opening has that record's name,
            // species, begin, end and segments".
            (own || !record.private) && record.name == opening.name && record.file == opening.file
        }
    }

    /// "segments in all lists are distinct, but for a record and its openings at one stretch".
    fn lists_are_distinct(&self) -> bool {
        let mut listed = [false; MOST_SEGMENTS];
        let mut first_mention = |number: u16| !std::mem::replace(&mut listed[usize::from(number)], true);
        for record in self.records.iter().flatten() {
            if !record.file.segments.iter().all(|segment| first_mention(segment.0)) {
                return false;
            }
        }
        for opening in self.openings.iter().flatten() {
            let record = opening.place.and_then(|place| self.records[place].as_ref());
            for (stretch, segment) in opening.file.stretches() {
                let shared = record.map_or(false, |record| record.file.lists_at(stretch, segment));
                if !shared && !first_mention(segment.0) {
                    return false;
                }
            }
        }
        true
    }

    /// The catalogue that sound outlines say, the elements taken from the store as it is.
    pub fn catalogue(&self, store: &Store) -> Catalogue {
        let mut catalogue = Catalogue::empty(self.segments);
        for (place, record) in self.records.iter().enumerate() {
            catalogue.records[place] = record.as_ref().map(|record| Record {
                name: record.name,
                owner: record.owner,
                private: record.private,
                file: filled(&mut catalogue, &record.file, store),
            });
        }
        for (index, opening) in self.openings.iter().enumerate() {
            let (user, entry) = (index / ENTRIES, index % ENTRIES);
            catalogue.entries[user][entry] = opening.as_ref().map(|opening| Opening {
                place: opening.place,
                permit: opening.permit,
                name: opening.name,
                file: filled(&mut catalogue, &opening.file, store),
                work: opening.work,
                own: opening.own,
            });
        }
        catalogue
    }
}

/// The file of an outline; its segments are free no more.
fn filled(catalogue: &mut Catalogue, file: &FileOutline, store: &Store) -> File {
    for segment in &file.segments {
        catalogue.free.remove(segment);
    }
    File::read_from(store, file.species, file.begin, file.end, &file.segments)
}
