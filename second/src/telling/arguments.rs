//! Users, entries, pointers, names and numbers for the calls: mostly good ones, sometimes not.

use super::mode::Mode;
use super::teller::Teller;
use crate::cells::fields::all_entries;
use crate::model::file::File;
use crate::model::opening::Opening;
use crate::model::record::Record;
use crate::rules::element::Kind;
use crate::rules::name::Name;

/// Byte strings, some of which make one name, some none.
const NAMES: [&[u8]; 20] = [
    b"a",
    b" a",
    b"a-z",
    b"b",
    b"c",
    b"x1",
    b"lift 7",
    b"lift7",
    b"l\ti ft 7",
    b"abcdefghijkl",
    b"abcdefghijklm",
    b"0",
    b"zz",
    b"9z",
    b"",
    b" ",
    b"Lift",
    b"\xC3\xA9",
    b"a\r",
    b"abc d e f g h i j k l m n",
];

impl Teller {
    /// Whether something odd is to be said where a good thing could be.
    pub fn slip(&mut self, percent: u32) -> bool {
        !self.is_calm() && self.random.chance(percent)
    }

    /// A calm history pokes nothing and says nothing odd.
    pub fn is_calm(&self) -> bool {
        self.mode == Mode::Calm
    }

    pub fn a_user(&mut self) -> u32 {
        if self.slip(2) {
            return self.random.pick(&[8, 9, 31, 32, 256, 4_294_967_295]);
        }
        if self.random.chance(60) {
            self.random.below(3)
        } else {
            self.random.below(8)
        }
    }

    pub fn an_entry(&mut self) -> u32 {
        if self.slip(2) {
            return self.random.pick(&[4, 5, 32, 256, 4_294_967_295]);
        }
        self.random.below(4)
    }

    fn entries_where(&self, wanted: impl Fn(u32, u32) -> bool) -> Vec<(u32, u32)> {
        let entries = all_entries().map(|(user, entry)| (user as u32, entry as u32));
        entries.filter(|&(user, entry)| wanted(user, entry)).collect()
    }

    fn mostly_from(&mut self, entries: &[(u32, u32)]) -> (u32, u32) {
        if entries.is_empty() || self.slip(5) {
            return (self.a_user(), self.an_entry());
        }
        self.random.pick(entries)
    }

    pub fn open_entries(&self) -> Vec<(u32, u32)> {
        self.entries_where(|user, entry| self.is_open(user, entry))
    }

    pub fn an_open_entry(&mut self) -> (u32, u32) {
        let open = self.open_entries();
        self.mostly_from(&open)
    }

    pub fn a_closed_entry(&mut self) -> (u32, u32) {
        let closed = self.entries_where(|user, entry| !self.is_open(user, entry));
        self.mostly_from(&closed)
    }

    pub fn an_entry_with_permit(&mut self) -> (u32, u32) {
        self.an_entry_with_permit_where(|_| true)
    }

    pub fn an_entry_with_permit_where(&mut self, wanted: impl Fn(&File) -> bool) -> (u32, u32) {
        let permits = |opening: &Opening| opening.permit && wanted(&opening.file);
        let permitted = match self.catalogue() {
            Some(catalogue) => self.entries_where(|user, entry| catalogue.opening(user, entry).map_or(false, permits)),
            None => Vec::new(),
        };
        self.mostly_from(&permitted)
    }

    /// An entry of this user that is not open, if there is one.
    pub fn closed_entry_of(&mut self, user: u32) -> u32 {
        (0..4).find(|&entry| !self.is_open(user, entry)).unwrap_or(0)
    }

    pub fn a_pointer(&mut self) -> u32 {
        if self.slip(2) {
            return self.random.pick(&[8, 9, 256, 4_294_967_295]);
        }
        match self.random.weighted(&[12, 34, 28, 26]) {
            3 => self.random.between(3, 7),
            standard => standard as u32,
        }
    }

    pub fn a_species(&mut self) -> u32 {
        if self.slip(8) {
            return self.random.pick(&[7, 8, 9, 4_294_967_295]);
        }
        match self.random.chance(40) {
            true => 5,
            false => self.a_known_species(),
        }
    }

    /// A value for a cell of any kind.
    pub fn a_number(&mut self) -> u32 {
        match self.random.below(4) {
            0 => self.random.below(4),
            1 => self.random.below(70_000),
            2 => self.random.pick(&[0, 255, 256, 300, 65_535, 65_536, 2_147_483_648, 4_294_967_295]),
            _ => self.random.any() as u32,
        }
    }

    pub fn a_name(&mut self) -> Vec<u8> {
        match self.random.below(10) {
            0 => (0..self.random.below(20)).map(|_| self.a_byte()).collect(),
            1..=4 => match self.a_record() {
                Some((_, record)) => text_of(&record.name),
                None => b"a".to_vec(),
            },
            _ => self.random.pick(&NAMES).to_vec(),
        }
    }

    /// Any byte that can stand in a line.
    pub fn a_byte(&mut self) -> u8 {
        match self.random.below(256) as u8 {
            b'\n' => b'\r',
            byte => byte,
        }
    }

    /// One of the records, with its place.
    pub fn a_record(&mut self) -> Option<(usize, Record)> {
        self.a_record_where(|_| true)
    }

    /// One of the records that list segments.
    pub fn a_record_with_segments(&mut self) -> Option<(usize, Record)> {
        self.a_record_where(|record| !record.file.segments().is_empty())
    }

    pub fn a_signed_record(&mut self) -> Option<(usize, Record)> {
        self.a_record_where(|record| record.file.species().kind() == Kind::Signed)
    }

    fn a_record_where(&mut self, wanted: impl Fn(&Record) -> bool) -> Option<(usize, Record)> {
        let places = self.catalogue()?.records.iter().enumerate();
        let records: Vec<(usize, Record)> = places
            .filter_map(|(place, record)| Some((place, record.as_ref().filter(|record| wanted(record))?.clone())))
            .collect();
        if records.is_empty() {
            return None;
        }
        let choice = self.random.index(records.len());
        records.into_iter().nth(choice)
    }

    /// A call with a name; now and then without the space before an empty one.
    pub fn say_with_name(&mut self, word: &str, user: u32, entry: u32, name: &[u8]) -> String {
        let mut line = format!("{} {} {}", word, user, entry).into_bytes();
        if !name.is_empty() || self.random.chance(50) {
            line.push(b' ');
        }
        line.extend(name);
        self.say(line)
    }
}

/// A byte string that makes this name.
pub fn text_of(name: &Name) -> Vec<u8> {
    let letters = b"0123456789abcdefghijklmnopqrstuvwxyz";
    name.symbols().iter().filter_map(|&symbol| letters.get(symbol as usize).copied()).collect()
}
