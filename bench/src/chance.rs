//! Random calls: all users and entries, numbers mostly in range and sometimes wild. They look at the tables, so that many of them are done.
use crate::calls::{At, Call, DELIVERED};
use crate::numbers;
use crate::random::Random;
use crate::tables::species_at;
use crate::twin::{GREATEST_SPECIES, SIGNED_SPECIES};

/// Names that the calls use again and again: of one symbol, of twelve, with blanks, empty ones.
const NAMES: [&[u8]; 10] =
    [b"a", b"b", b"c", b"d", b"lift 7", b"0123456789ab", b"0123456789abcd", b" z\tz\nz", b"", b"Lift"];

/// More than a segment of species 0 has.
pub const LONGEST_RUN: u32 = 2_500;

pub struct Chance {
    pub random: Random,
    /// The last call, or what comes after it, and how often that is still to be made.
    last: Call,
    again: u32,
}

impl Chance {
    pub fn new(seed: u64) -> Chance {
        Chance { random: Random(seed), last: Call::Save, again: 0 }
    }

    /// A call. An access is now and then made many times over, and a pointer asked for several times. After a load, which leaves nothing open, comes a
    /// tidying.
    pub fn call(&mut self, tables: &[u32]) -> Call {
        if self.again > 0 {
            self.again -= 1;
            return self.last.clone();
        }
        let call = match self.random.below(100) {
            0..=1 => self.operators(),
            2..=24 => self.openings(tables),
            25..=34 => self.endings(tables),
            35..=74 => self.accesses(tables),
            75..=84 => self.runs(tables),
            _ => self.others(tables),
        };
        self.again = match call {
            _ if call.is_access() && self.random.one_in(3) => self.random.below(200),
            Call::Pointer(..) => self.random.below(4),
            Call::WriteRun(..) | Call::FillRun(..) if self.random.one_in(3) => self.random.below(5),
            Call::Load => 1,
            _ => 0,
        };
        self.last = if let Call::Load = call { Call::Tidy } else { call.clone() };
        call
    }

    /// A refused call is made again once at most.
    pub fn heard(&mut self, done: bool) {
        if !done {
            self.again = self.again.min(1);
        }
    }

    fn anywhere(&mut self) -> At {
        (self.random.mostly_below(8), self.random.mostly_below(4))
    }

    /// An entry that is open, mostly.
    fn open(&mut self, tables: &[u32]) -> At {
        let all = (0..32).map(|entry| (entry / 4, entry % 4));
        let open: Vec<At> = all.filter(|&at| species_at(tables, at).is_some()).collect();
        match self.random.one_of(&open) {
            Some(&at) if !self.random.one_in(12) => at,
            _ => self.anywhere(),
        }
    }

    /// The species of the file there, or any.
    fn species(&mut self, tables: &[u32], at: At) -> u32 {
        let any = self.random.below(GREATEST_SPECIES + 1);
        species_at(tables, at).unwrap_or(any)
    }

    /// Mostly the begin, the end or the work pointer.
    fn pointer(&mut self) -> u32 {
        if self.random.one_in(4) {
            return self.random.mostly_below(8);
        }
        self.random.below(3)
    }

    fn name(&mut self) -> Vec<u8> {
        match self.random.below(8) {
            0 => (0..self.random.below(16)).map(|_| self.random.number() as u8).collect(),
            1..=2 => vec![b'0' + self.random.below(8) as u8, b'0' + self.random.below(8) as u8],
            _ => NAMES[self.random.below(NAMES.len() as u32) as usize].to_vec(),
        }
    }

    /// The owner and the name of a record, if there is one.
    fn filed(&mut self, tables: &[u32]) -> Option<(u32, Vec<u8>)> {
        let used: Vec<&[u32]> =
            tables.get(1..)?.chunks(50).take(64).filter(|cells| cells.len() == 50 && cells[0] == 1).collect();
        let cells = self.random.one_of(&used)?;
        let byte = |&symbol: &u32| b"0123456789abcdefghijklmnopqrstuvwxyz".get(symbol as usize).copied();
        Some((cells[13], cells[1..13].iter().map_while(byte).collect()))
    }

    fn operators(&mut self) -> Call {
        match self.random.below(10) {
            0 => Call::Load,
            1 => Call::Tidy,
            _ => Call::Save,
        }
    }

    fn openings(&mut self, tables: &[u32]) -> Call {
        let (mut user, entry) = self.anywhere();
        if self.random.one_in(3) {
            // and one species that there is not
            return Call::New((user, entry), self.random.mostly_below(GREATEST_SPECIES + 2));
        }
        let mut name = self.name();
        if let Some((owner, filed)) = self.filed(tables) {
            if !self.random.one_in(4) {
                name = filed;
            }
            if !self.random.one_in(4) {
                user = owner;
            }
        }
        if self.random.one_in(3) {
            return Call::Read((user, entry), name);
        }
        Call::Work((user, entry), name)
    }

    fn endings(&mut self, tables: &[u32]) -> Call {
        let at = self.open(tables);
        match self.random.below(10) {
            0..=4 => Call::Close(at),
            5..=7 => Call::Public(at),
            _ => Call::Abandon(at),
        }
    }

    fn accesses(&mut self, tables: &[u32]) -> Call {
        let at = self.open(tables);
        self.access(tables, at)
    }

    /// A write, next or prev at an entry, mostly of the kind that the file takes.
    pub fn access(&mut self, tables: &[u32], at: At) -> Call {
        let species = self.species(tables, at);
        let signed = (species == SIGNED_SPECIES) != self.random.one_in(20);
        let kind = self.random.below(10);
        let pointer = if kind < 3 { 1 } else { self.pointer() };
        match kind {
            0..=5 if signed => Call::WriteSigned(at, pointer, numbers::signed(&mut self.random)),
            0..=5 => Call::Write(at, pointer, numbers::plain(&mut self.random, species)),
            6..=7 if signed => Call::NextSigned(at, pointer),
            6..=7 => Call::Next(at, pointer),
            _ if signed => Call::PrevSigned(at, pointer),
            _ => Call::Prev(at, pointer),
        }
    }

    /// None, one, some, as many as a sensor delivers, several hundred, more.
    fn length(&mut self) -> u32 {
        match self.random.below(8) {
            0 => 0,
            1 => 1,
            2..=3 => self.random.below(DELIVERED),
            4..=5 => DELIVERED,
            6 => self.random.below(700),
            _ => self.random.below(LONGEST_RUN + 1),
        }
    }

    fn runs(&mut self, tables: &[u32]) -> Call {
        let at = self.open(tables);
        self.run(tables, at)
    }

    /// A run at an entry.
    pub fn run(&mut self, tables: &[u32], at: At) -> Call {
        let pointer = if self.random.one_in(3) { 1 } else { self.pointer() };
        let length = self.length();
        if self.random.one_in(3) {
            return Call::FillRun(at, pointer, length as usize);
        }
        let species = self.species(tables, at);
        Call::WriteRun(at, pointer, numbers::list(&mut self.random, species, length))
    }

    fn others(&mut self, tables: &[u32]) -> Call {
        let at = self.open(tables);
        match self.random.below(10) {
            0..=3 => Call::Rename(at, self.name()),
            4..=6 => Call::Pointer(at, self.pointer()),
            7 => Call::Value(at, self.random.mostly_below(8)),
            8 => Call::Claim(at),
            _ => Call::Free(at.0),
        }
    }
}
