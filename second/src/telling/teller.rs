//! The one who writes the lines down and knows what they have led to.

use super::mode::Mode;
use super::random::Random;
use crate::cells::fields::TABLES_LENGTH;
use crate::model::catalogue::Catalogue;
use crate::model::store::Segment;
use crate::text::answering::Desk;
use crate::text::line::BufferName;

pub struct Teller {
    pub random: Random,
    pub mode: Mode,
    pub lines: Vec<Vec<u8>>,
    /// How many stories of the seldom kinds were told out of turn.
    pub rare_stories: usize,
    desk: Desk,
}

/// The lengths that a store is lent with.
const STORES: [u32; 14] = [64, 65, 127, 128, 192, 320, 640, 700, 2048, 2112, 4096, 65_535, 65_536, 65_600];
const SMALL_STORES: [u32; 6] = [64, 128, 192, 320, 640, 1280];

impl Teller {
    pub fn new(seed: u64, mode: Mode) -> Teller {
        Teller { random: Random::new(seed), mode, lines: Vec::new(), rare_stories: 0, desk: Desk::new() }
    }

    /// Writes a line down; delivers its answer, empty where there is none.
    pub fn say(&mut self, line: impl AsRef<[u8]>) -> String {
        let line = line.as_ref();
        let answer = self.desk.answer(line).unwrap_or_default();
        self.lines.push(line.to_vec());
        answer
    }

    /// What the calls work on, if they work at all.
    pub fn catalogue(&self) -> Option<&Catalogue> {
        self.desk.tables.usable(&self.desk.store).ok()
    }

    pub fn cell(&self, buffer: BufferName, cell: usize) -> u32 {
        self.desk.cells(buffer)[cell]
    }

    /// How many cells of a buffer are lent.
    pub fn lent(&self, buffer: BufferName) -> usize {
        self.desk.lent(buffer)
    }

    pub fn is_open(&self, user: u32, entry: u32) -> bool {
        self.catalogue().map_or(false, |catalogue| catalogue.opening(user, entry).is_ok())
    }

    /// Pokes only where the cell is not already so.
    pub fn poke(&mut self, buffer: BufferName, cell: usize, value: u32) {
        if self.cell(buffer, cell) != value {
            self.say(format!("poke {} {} {}", buffer_word(buffer), cell, value));
        }
    }

    /// Lends only where the buffer is not already lent so.
    pub fn lend(&mut self, buffer: BufferName, length: usize) {
        if self.lent(buffer) != length {
            self.say(format!("lend {} {}", buffer_word(buffer), length));
        }
    }

    /// Free segments in random order, as many as asked for or as there are.
    pub fn some_free_segments(&mut self, count: usize) -> Vec<Segment> {
        let mut free: Vec<Segment> = match self.catalogue() {
            Some(catalogue) => catalogue.free.iter().copied().collect(),
            None => Vec::new(),
        };
        let count = count.min(free.len());
        for place in 0..count {
            let other = place + self.random.index(free.len() - place);
            free.swap(place, other);
        }
        free.truncate(count);
        free
    }

    /// A fresh start with right lengths.
    pub fn start_anew(&mut self) {
        let length = match self.mode {
            Mode::Small => self.random.pick(&SMALL_STORES),
            _ => self.random.pick(&STORES),
        };
        self.say(format!("lend store {}", length));
        self.say(format!("lend tables {}", TABLES_LENGTH));
        self.say("fresh");
    }

    /// Sums that show what the lines before have done.
    pub fn look(&mut self) {
        self.say("sum tables");
        if self.random.chance(35) {
            self.say("sum store");
        }
        if self.random.chance(15) {
            let image = self.random.below(4);
            self.say(format!("sum image{}", image));
        }
        if self.random.chance(15) {
            let list = self.a_list();
            self.say(format!("sum list{}", list));
        }
        if self.random.chance(15) {
            let cell = self.random.below(TABLES_LENGTH as u32 + 64);
            self.say(format!("peek tables {}", cell));
        }
        if self.random.chance(15) {
            let cell = self.random.below(65_600);
            self.say(format!("peek store {}", cell));
        }
    }
}

pub fn buffer_word(buffer: BufferName) -> String {
    match buffer {
        BufferName::Store => "store".to_string(),
        BufferName::Tables => "tables".to_string(),
        BufferName::Image(image) => format!("image{}", image),
        BufferName::List(list) => format!("list{}", list),
    }
}
