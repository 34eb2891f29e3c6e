//! The one who tells a story: makes up lines, says them, and knows what they have led to.

use crate::pair::{Difference, Pair};
use crate::random::Random;
use filing::model::catalogue::Catalogue;
use filing::model::opening::Opening;
use filing::model::record::Record;
use filing::rules::name::Name;

/// A story ends where the two differ.
pub type Told = Result<(), Difference>;

pub struct Teller {
    pub pair: Pair,
    pub random: Random,
    /// One argument in so many is a wild one.
    pub sense: u32,
}

/// Bytes that make names: some of them one name, some the empty one.
const NAMES: [&[u8]; 20] = [
    b"a",
    b"b",
    b"c",
    b"d",
    b" a",
    b"a-b",
    b"\ta\n",
    b"lift 7",
    b"lift7",
    b"LIFT",
    b"abcdefghijkl",
    b"abcdefghijklmn",
    b"0",
    b"9z",
    b"",
    b"\n",
    b"zzzzzzzzzzzz",
    b"a\0b",
    b"a\nb",
    b"\n c",
];

const EDGES: [u32; 22] = [
    3,
    4,
    5,
    6,
    7,
    8,
    12,
    31,
    32,
    33,
    63,
    64,
    255,
    256,
    1023,
    1024,
    4993,
    16_777_215,
    16_777_216,
    0x8000_0000,
    u32::MAX - 1,
    u32::MAX,
];

impl Teller {
    /// Says a line; delivers whether it was a call that was done, or a run that nothing stopped.
    pub fn say(&mut self, line: impl AsRef<[u8]>) -> Result<bool, Difference> {
        Ok(self.pair.say(line.as_ref())?.is_some_and(|reply| reply.refusal().is_none()))
    }

    /// A call with a name.
    pub fn say_named(&mut self, call: &str, (user, entry): (u32, u32), name: &[u8]) -> Result<bool, Difference> {
        let mut line = format!("{call} {user} {entry} ").into_bytes();
        line.extend(name);
        self.say(line)
    }

    /// What the tables say, while they are sound.
    pub fn catalogue(&self) -> Option<&Catalogue> {
        self.pair.second.tables.usable(&self.pair.second.store).ok()
    }

    fn entries(&self, wanted: impl Fn(Option<&Opening>) -> bool) -> Vec<(u32, u32)> {
        let Some(catalogue) = self.catalogue() else { return Vec::new() };
        let all = (0..8).flat_map(|user| (0..4).map(move |entry| (user, entry)));
        let found = all.filter(|&(user, entry)| wanted(catalogue.entries[user][entry].as_ref()));
        found.map(|(user, entry)| (user as u32, entry as u32)).collect()
    }

    /// Mostly one of these, else any user and any entry.
    fn mostly(&mut self, entries: Vec<(u32, u32)>) -> (u32, u32) {
        let any = (self.random.below(8), self.random.below(4));
        let (user, entry) = self.random.any_of(&entries).unwrap_or(any);
        (self.or_wild(user), self.or_wild(entry))
    }

    pub fn open_entry(&mut self) -> (u32, u32) {
        self.mostly(self.entries(|opening| opening.is_some()))
    }

    pub fn working_entry(&mut self) -> (u32, u32) {
        self.mostly(self.entries(|opening| opening.is_some_and(|opening| opening.permit)))
    }

    /// With an empty file that can be written to.
    pub fn empty_entries(&self) -> Vec<(u32, u32)> {
        let is_empty = |opening: &Opening| opening.permit && opening.file.begin() == opening.file.end();
        self.entries(|opening| opening.is_some_and(is_empty))
    }

    pub fn closed_entry(&mut self) -> (u32, u32) {
        self.mostly(self.entries(|opening| opening.is_none()))
    }

    /// The first entry of this user that is not open.
    pub fn closed_entry_of(&self, user: u32) -> (u32, u32) {
        let closed = self.entries(|opening| opening.is_none());
        closed.into_iter().find(|&(owner, _)| owner == user).unwrap_or((user, 0))
    }

    /// One of the records, with its place.
    pub fn record(&mut self) -> Option<(usize, Record)> {
        let used: Vec<usize> = match self.catalogue() {
            Some(catalogue) => (0..64).filter(|&place| catalogue.records[place].is_some()).collect(),
            None => return None,
        };
        let place = self.random.any_of(&used)?;
        Some((place, self.catalogue()?.records[place].clone()?))
    }

    pub fn or_wild(&mut self, number: u32) -> u32 {
        match self.random.once_in(self.sense) {
            true => self.wild_number(),
            false => number,
        }
    }

    pub fn wild_number(&mut self) -> u32 {
        match self.random.below(4) {
            0 => self.random.below(10),
            1 => 1 << self.random.below(32),
            2 => self.random.one_of(&EDGES),
            _ => self.random.cell(),
        }
    }

    pub fn pointer(&mut self) -> u32 {
        let pointer = self.random.one_of(&[0, 1, 1, 1, 2, 2, 2, 3, 3, 4, 5, 6, 7]);
        self.or_wild(pointer)
    }

    pub fn name(&mut self) -> Vec<u8> {
        match self.random.below(8) {
            0 => (0..self.random.below(24)).map(|_| self.random.any() as u8).collect(),
            1 | 2 => self.record().map(|(_, record)| bytes_of(&record.name)).unwrap_or_default(),
            _ => self.random.one_of(&NAMES).to_vec(),
        }
    }
}

/// Bytes that make this name.
pub fn bytes_of(name: &Name) -> Vec<u8> {
    let letters = b"0123456789abcdefghijklmnopqrstuvwxyz";
    name.symbols().iter().filter_map(|&symbol| letters.get(symbol as usize).copied()).collect()
}
