//! "segments in all lists are distinct, but for a record and its openings at one stretch": one segment in two lists, at
//! stretches that only a count of too few bits takes for one.

use super::positions::{first_position, top_stretch, OLD_STRETCHES};
use super::seats::Seat;
use super::teller::Teller;
use crate::model::opening::BEGIN;
use crate::rules::name::Name;
use crate::rules::sizes::{ENTRIES, USERS};
use crate::rules::species::Species;

/// The species with most stretches.
const WHOLE_CELLS: u32 = 5;

/// So many stretches of whole cells there are.
const STRETCHES: u32 = 67_108_864;

const AT_ONE_STRETCH: u32 = 0;

/// A file of one element, closed or still open.
#[derive(Clone, Copy)]
struct SmallFile {
    user: u32,
    entry: u32,
    species: Species,
    seat: Seat,
}

impl Teller {
    pub fn lie_apart(&mut self) {
        match self.random.chance(60) {
            true => self.move_a_work_opening(),
            false => self.share_between_strangers(),
        }
    }

    /// An old file opened for work, whose bounds are then put elsewhere while it lists the record's segment.
    fn move_a_work_opening(&mut self) {
        let (user, entry) = self.a_closed_entry();
        let name = self.a_name_for_a_small_file();
        let record = match self.make_a_small_file(user, entry).and_then(|file| self.close_small(file, &name)) {
            Some(record) => record,
            None => return,
        };
        if !self.say_with_name("work", user, entry, name.as_bytes()).starts_with("done") {
            return;
        }
        let opening = SmallFile { seat: Seat::of_opening(user, entry), ..record };
        let distances = self.some_distances();
        self.lie_elsewhere(record, opening, &distances);
        self.inquire_all(user, entry);
        self.next(user, entry, BEGIN);
        self.append_some(user, entry, 1);
        self.end_work(user, entry);
    }

    /// Two files that have nothing to do with each other may share at no stretch, also not at the same one.
    fn share_between_strangers(&mut self) {
        let (user, entry) = self.a_closed_entry();
        let name = self.a_name_for_a_small_file();
        let one = match self.make_a_small_file(user, entry) {
            Some(file) if self.random.chance(70) => self.close_small(file, &name),
            made => made,
        };
        let (user, entry) = one.map_or((user, entry), |one| self.an_entry_like(one.seat));
        let name = self.a_name_for_a_small_file();
        let other = match self.make_a_small_file(user, entry) {
            Some(file) if self.random.chance(30) => self.close_small(file, &name),
            made => made,
        };
        if let (Some(one), Some(other)) = (one, other) {
            self.confuse(one, other);
        }
    }

    /// Whoever joins the number of a list and that of a stretch into one takes a stretch of this list for another one of
    /// that: so the list that comes first lies further up.
    fn confuse(&mut self, one: SmallFile, other: SmallFile) {
        let (first, later) = match one.seat.number < other.seat.number {
            true => (one, other),
            false => (other, one),
        };
        let seats_apart = later.seat.number - first.seat.number;
        let mut distances = self.some_distances();
        distances.extend([AT_ONE_STRETCH, OLD_STRETCHES * seats_apart]);
        self.lie_elsewhere(later, first, &distances);
    }

    fn a_name_for_a_small_file(&mut self) -> String {
        format!("apart{}", self.random.below(100_000))
    }

    /// A new file, mostly at the first stretch.
    fn make_a_small_file(&mut self, user: u32, entry: u32) -> Option<SmallFile> {
        let number = match self.random.chance(70) {
            true => WHOLE_CELLS,
            false => self.a_known_species(),
        };
        let species = Species::from_number(number)?;
        if !self.say(format!("new {} {} {}", user, entry, number)).starts_with("done") {
            return None;
        }
        if self.random.chance(30) {
            let stretch = self.a_far_stretch(species);
            self.move_empty_file(user, entry, first_position(species, stretch));
        }
        self.append_one_by_one(user, entry, 1);
        let held = self.catalogue()?.opening(user, entry).ok()?.file.segments().len();
        match held {
            1 => Some(SmallFile { user, entry, species, seat: Seat::of_opening(user, entry) }),
            _ => None,
        }
    }

    /// The file as a record.
    fn close_small(&mut self, file: SmallFile, name: &str) -> Option<SmallFile> {
        self.say_with_name("rename", file.user, file.entry, name.as_bytes());
        self.end_surely("close", file.user, file.entry);
        let name = Name::from_bytes(name.as_bytes());
        let mut records = self.catalogue()?.records.iter();
        let place = records.position(|record| record.as_ref().map_or(false, |record| record.name == name))?;
        Some(SmallFile { seat: Seat::of_record(place), ..file })
    }

    /// The entry that has the number of this seat among the openings, if it has one and is not open; or any.
    fn an_entry_like(&mut self, seat: Seat) -> (u32, u32) {
        let entries = ENTRIES as u32;
        let (user, entry) = (seat.number / entries, seat.number % entries);
        match (user as usize) < USERS && !self.is_open(user, entry) && self.random.chance(80) {
            true => (user, entry),
            false => self.a_closed_entry(),
        }
    }

    /// The other file lies elsewhere with the one's segment; at last with a free one, or where and as it was.
    fn lie_elsewhere(&mut self, one: SmallFile, other: SmallFile, distances: &[u32]) {
        let before = (self.bounds_at(other.seat), self.first_segment_at(other.seat));
        let free_segment = self.some_free_segments(1).first().copied();
        for &distance in distances {
            self.try_a_distance(one, other, distance, before.1);
        }
        match free_segment {
            Some(segment) if self.random.chance(60) => self.put_first_segment(other.seat, u32::from(segment.0)),
            _ => {
                self.put_bounds(other.seat, before.0);
                self.put_first_segment(other.seat, before.1);
            }
        }
        self.say("free 2");
    }

    /// With the one's segment, and sometimes with its own there.
    fn try_a_distance(&mut self, one: SmallFile, other: SmallFile, distance: u32, own_segment: u32) {
        let stretch = one.species.stretch_of(self.bounds_at(one.seat).0);
        if let Some(there) = stretch_apart(stretch, distance, top_stretch(other.species)) {
            let begin = first_position(other.species, there);
            let segment = self.first_segment_at(one.seat);
            self.put_bounds(other.seat, (begin, begin + 1));
            self.put_first_segment(other.seat, segment);
            let question = self.random.pick(&["free 0", "free 0", "tidy", "save 3"]);
            self.say(question);
            if self.random.chance(30) {
                self.put_first_segment(other.seat, own_segment);
                self.say("free 1");
            }
        }
    }

    /// As far as stretches once went, twice or more times as far, and any.
    fn some_distances(&mut self) -> Vec<u32> {
        let doubled = OLD_STRETCHES << self.random.pick(&[1, 2, 3, 4, 5, 6, 6, 6, 7, 7]);
        let nearer = 1 << self.random.between(0, 17);
        let times = OLD_STRETCHES * self.random.between(1, 255);
        let all_the_way = STRETCHES - self.random.between(1, 2);
        let last = self.random.pick(&[nearer, nearer, times, all_the_way]);
        vec![OLD_STRETCHES, doubled, last]
    }
}

/// So many stretches further up, or down where there is none.
fn stretch_apart(stretch: u32, distance: u32, top: u32) -> Option<u32> {
    match stretch.checked_add(distance) {
        Some(up) if up <= top => Some(up),
        _ => stretch.checked_sub(distance).filter(|&down| down <= top),
    }
}
