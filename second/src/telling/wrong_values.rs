//! Values that are just right or just wrong for a field, by what the field holds.

use super::teller::Teller;
use crate::cells::fields::{opening as of_opening, record as of_record};
use crate::model::store::Segment;

/// What a field holds.
#[derive(Clone, Copy)]
pub enum Kind {
    Flag,
    Owner,
    Species,
    Place,
    Position,
    Symbol,
    Segment,
}

pub fn kind_in_record(field: usize) -> Kind {
    match field {
        of_record::USED | of_record::PRIVATE => Kind::Flag,
        of_record::OWNER => Kind::Owner,
        of_record::SPECIES => Kind::Species,
        of_record::BEGIN | of_record::END => Kind::Position,
        _ if of_record::NAME.contains(&field) => Kind::Symbol,
        _ => Kind::Segment,
    }
}

pub fn kind_in_opening(field: usize) -> Kind {
    match field {
        of_opening::OPEN | of_opening::PERMIT => Kind::Flag,
        of_opening::PLACE => Kind::Place,
        of_opening::SPECIES => Kind::Species,
        of_opening::BEGIN | of_opening::END | of_opening::WORK => Kind::Position,
        _ if of_opening::OWN.contains(&field) => Kind::Position,
        _ if of_opening::NAME.contains(&field) => Kind::Symbol,
        _ => Kind::Segment,
    }
}

impl Teller {
    /// One of a record's fields; the twelve symbols and the 32 list places come up less than one by one, and
    /// of those the first ones most.
    pub fn a_record_field(&mut self) -> usize {
        match self.random.below(10) {
            0 => of_record::USED,
            1 => of_record::OWNER,
            2 => of_record::PRIVATE,
            3 => of_record::SPECIES,
            4 => of_record::BEGIN,
            5 => of_record::END,
            6 => of_record::NAME.start,
            7 => of_record::NAME.start + self.random.index(of_record::NAME.len()),
            8 => of_record::LIST.start + self.random.index(3),
            _ => self.random.index(of_record::COUNT),
        }
    }

    pub fn an_opening_field(&mut self) -> usize {
        match self.random.below(13) {
            0 => of_opening::OPEN,
            1 | 2 => of_opening::PLACE,
            3 => of_opening::PERMIT,
            4 => of_opening::SPECIES,
            5 => of_opening::BEGIN,
            6 => of_opening::END,
            7 => of_opening::WORK,
            8 => of_opening::OWN.start + self.random.index(of_opening::OWN.len()),
            9 => of_opening::NAME.start,
            10 => of_opening::NAME.start + self.random.index(of_opening::NAME.len()),
            11 => of_opening::LIST.start + self.random.index(3),
            _ => self.random.index(of_opening::COUNT),
        }
    }

    pub fn a_trial_value(&mut self, kind: Kind, now: u32) -> u32 {
        if self.random.chance(6) {
            return self.random.pick(&[now ^ 1 << 31, now ^ 1 << 8, now.wrapping_sub(1), u32::MAX]);
        }
        match kind {
            Kind::Flag => self.random.pick(&[0, 1, 1 - now.min(1), 2]),
            Kind::Owner => self.random.pick(&[0, 1, 2, 3, 7, 8, now ^ 1]),
            Kind::Species => self.random.pick(&[now.wrapping_add(1), now.wrapping_sub(1), 0, 5, 6, 7]),
            Kind::Place => match self.a_record() {
                Some((place, _)) if self.random.chance(50) => place as u32 + 1,
                _ => self.random.pick(&[0, 0, 1, 2, 63, 64, 65]),
            },
            Kind::Position => self.a_trial_position(now),
            Kind::Symbol => self.random.pick(&[0, 10, 35, 36, 62, 63, 63, 64, now ^ 1]),
            Kind::Segment => self.a_trial_segment(),
        }
    }

    /// A segment that another list has, or a free one, or one at the end of those that there are.
    fn a_trial_segment(&mut self) -> u32 {
        let number = self.catalogue().map_or(1, |catalogue| catalogue.segments as u32);
        let listed = match self.a_record() {
            Some((_, record)) if !record.file.segments().is_empty() => {
                let segments: Vec<Segment> = record.file.segments().iter().copied().collect();
                u32::from(self.random.pick(&segments).0)
            }
            _ => 0,
        };
        let free = self.some_free_segments(1).first().map_or(0, |segment| u32::from(segment.0));
        self.random.pick(&[listed, listed, free, free, number - 1, number, 0, 1, 1023, 1024])
    }
}
