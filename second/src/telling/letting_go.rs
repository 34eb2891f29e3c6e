//! Files that let segments go: removed, shortened, or changed so that copies take the place of what was shared.

use super::arguments::text_of;
use super::teller::Teller;
use crate::model::catalogue::Catalogue;
use crate::model::file::File;
use crate::model::opening::{BEGIN, END, WORK};
use crate::model::record::Record;

/// With so many free segments, or half of all, there is room to scatter; to come to it, at most so many files go.
const ENOUGH_FREE: usize = 4;
const MOST_REMOVED_FIRST: usize = 3;

/// So many files with segments are to be left.
const FILES_LEFT: usize = 2;

/// More elements than this are not taken from a file's end one by one.
const MOST_DROPPED_ONE_BY_ONE: u32 = 12;

impl Teller {
    /// Where hardly any segment is free, some files are removed.
    pub fn free_some_segments(&mut self) {
        let enough = |catalogue: &Catalogue| catalogue.free.len() >= ENOUGH_FREE.min(catalogue.segments / 2);
        for _ in 0..MOST_REMOVED_FIRST {
            if self.catalogue().map_or(true, enough) {
                return;
            }
            self.remove_a_file();
        }
    }

    pub fn let_some_segments_go(&mut self) {
        if self.files_with_segments() <= FILES_LEFT {
            return self.change_a_file();
        }
        match self.random.weighted(&[30, 35, 35]) {
            0 => self.remove_a_file(),
            1 => self.shorten_a_file(),
            _ => self.change_a_file(),
        }
    }

    fn files_with_segments(&self) -> usize {
        let records = self.catalogue().into_iter().flat_map(|catalogue| catalogue.records.iter().flatten());
        records.filter(|record| !record.file.segments().is_empty()).count()
    }

    /// The larger one of two, as it leaves more room.
    fn remove_a_file(&mut self) {
        let two = [self.a_record_with_segments(), self.a_record_with_segments()];
        let larger = two.into_iter().flatten().max_by_key(|(_, record)| record.file.segments().len());
        if let Some((_, record)) = larger {
            self.remove(&record);
        }
    }

    /// A file that has elements, opened for work by its owner.
    fn work_on_a_file(&mut self) -> Option<(u32, u32, Record)> {
        let (_, record) = self.a_record_with_segments()?;
        let user = record.owner as u32;
        let entry = self.closed_entry_of(user);
        let opened = self.open_old("work", user, entry, &text_of(&record.name));
        if opened.starts_with("done") {
            Some((user, entry, record))
        } else {
            None
        }
    }

    /// As many elements leave a file at one of its ends as lie in the stretch there, so that its segment is let go.
    fn shorten_a_file(&mut self) {
        let (user, entry, record) = match self.work_on_a_file() {
            Some(work) => work,
            None => return,
        };
        let (first, last) = elements_in_outer_stretches(&record.file);
        if last <= MOST_DROPPED_ONE_BY_ONE && self.random.chance(60) {
            for _ in 0..last {
                self.prev(user, entry, END);
            }
        } else {
            self.drop_from_the_begin(user, entry, first);
        }
        let word = self.random.pick(&["close", "close", "public"]);
        self.end_surely(word, user, entry);
    }

    /// By a run written or filled; a signed file has none.
    pub fn drop_from_the_begin(&mut self, user: u32, entry: u32, count: u32) {
        if self.is_signed(user, entry) {
            for _ in 0..count {
                self.next(user, entry, BEGIN);
            }
        } else if self.random.chance(50) {
            let list = self.a_list_to_write(user, entry, count);
            self.write_run(user, entry, BEGIN, list);
        } else {
            let list = self.a_list_to_fill(user, entry, count);
            self.fill_run(user, entry, BEGIN, list);
        }
    }

    /// "before a write into a shared segment, that segment is copied to a taken one": after a close the old one is free,
    /// after abandoning the copy.
    fn change_a_file(&mut self) {
        let (user, entry) = match self.work_on_a_file() {
            Some((user, entry, _)) => (user, entry),
            None => return,
        };
        self.say(format!("reset {} {}", user, entry));
        self.write(user, entry, WORK);
        if self.random.chance(40) {
            self.run_through(user, entry, WORK);
        }
        if self.random.chance(25) {
            self.append_about_a_segment(user, entry);
        }
        let word = self.random.pick(&["close", "close", "public", "abandon"]);
        self.end_surely(word, user, entry);
    }
}

/// How many elements lie in the first stretch that a file holds, and how many in the last.
fn elements_in_outer_stretches(file: &File) -> (u32, u32) {
    let (species, begin, end) = (file.species(), file.begin(), file.end());
    if begin == end {
        return (0, 0);
    }
    let from_begin = species.elements_in_a_segment() - species.offset_of(begin);
    let up_to_end = species.offset_of(end - 1) + 1;
    (from_begin.min(end - begin), up_to_end.min(end - begin))
}

#[cfg(test)]
mod tests {
    use super::*;
    use crate::model::store::{Segment, Store};
    use crate::rules::species::Species;

    #[test]
    fn outer_stretches() {
        let species = Species::from_number(5).expect("0 to 6");
        let of = |begin, end, held| {
            let segments: Vec<Segment> = (0..held).map(Segment).collect();
            elements_in_outer_stretches(&File::read_from(&Store::new(), species, begin, end, &segments))
        };
        assert_eq!(of(1, 1, 0), (0, 0));
        assert_eq!(of(3, 6, 1), (3, 3));
        assert_eq!(of(64, 66, 2), (1, 1));
        assert_eq!(of(1, 129, 2), (64, 64));
        assert_eq!(of(62, 131, 3), (3, 2));
    }
}
