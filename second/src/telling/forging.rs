//! Records and openings made by poking cells, so that they are sound and far from where appending alone leads.

use super::arguments::text_of;
use super::positions::{first_position, further_on, top_stretch};
use super::teller::Teller;
use crate::cells::fields::{self, opening as of_opening, record as of_record};
use crate::cells::form::RecordBits;
use crate::cells::image::SAVED_FORM;
use crate::model::store::Segment;
use crate::rules::name::Name;
use crate::rules::sizes::PLACES;
use crate::rules::species::Species;
use crate::text::line::BufferName;

/// The bounds of a file, and the segments that it holds.
pub struct Shape {
    pub species: Species,
    pub begin: u32,
    pub end: u32,
    pub segments: Vec<Segment>,
}

impl Teller {
    /// A shape of so many free segments, at the first stretch, somewhere, or as far up as there are positions.
    pub fn a_shape(&mut self, held: usize) -> Option<Shape> {
        let species = Species::from_number(self.a_known_species())?;
        self.a_shape_of(species, held)
    }

    pub fn a_shape_of(&mut self, species: Species, held: usize) -> Option<Shape> {
        let segments = self.some_free_segments(held);
        let held = segments.len() as u32;
        if held == 0 {
            return None;
        }
        let last = self.a_last_stretch(species, held);
        let elements = species.elements_in_a_segment();
        let beyond_begin = match self.random.chance(50) {
            true => 0,
            false => self.random.below(elements),
        };
        let beyond_last = match self.random.chance(75) {
            true => elements - self.random.below(4),
            false => 1 + self.random.below(elements),
        };
        let end = further_on(first_position(species, last), beyond_last);
        let begin = further_on(first_position(species, last + 1 - held), beyond_begin);
        // In one single stretch the begin may have come out after the end.
        Some(Shape { species, begin: begin.min(end - 1), end, segments })
    }

    fn a_last_stretch(&mut self, species: Species, held: u32) -> u32 {
        let (lowest, top) = (held - 1, top_stretch(species));
        match self.random.weighted(&[30, 20, 15, 35]) {
            0 => lowest,
            1 => self.random.between(lowest, top),
            2 => self.a_far_stretch(species).max(lowest),
            _ => top,
        }
    }

    /// The fifty numbers of a record under a name that most likely no other file has.
    pub fn a_record_of(&mut self, shape: &Shape) -> [u32; of_record::COUNT] {
        let owner = self.random.below(8);
        let symbols: Vec<u32> = (0..self.random.between(1, 12)).map(|_| self.random.below(36)).collect();
        let mut numbers = [0; of_record::COUNT];
        numbers[of_record::USED] = 1;
        numbers[of_record::NAME].fill(63);
        for (place, symbol) in of_record::NAME.zip(symbols) {
            numbers[place] = symbol;
        }
        numbers[of_record::OWNER] = owner;
        numbers[of_record::PRIVATE] = self.random.below(2);
        numbers[of_record::SPECIES] = shape.species.number();
        numbers[of_record::BEGIN] = shape.begin;
        numbers[of_record::END] = shape.end;
        for (place, segment) in of_record::LIST.zip(&shape.segments) {
            numbers[place] = u32::from(segment.0);
        }
        numbers
    }

    /// A record of so many free segments, put into an image and loaded, or put into the tables: its owner and a text that
    /// makes its name. Nothing where no segment is free.
    pub fn forge_a_record(&mut self, held: usize) -> Option<(u32, Vec<u8>)> {
        let image = self.random.index(4);
        let by_image = self.random.chance(70);
        if by_image {
            self.say(format!("save {}", image));
        }
        let shape = self.a_shape(held)?;
        let numbers = self.a_record_of(&shape);
        let place = self.a_place();
        if by_image {
            self.put_into_image(SAVED_FORM, image, place, &RecordBits::with_zero_bits(numbers));
            self.say(format!("load {}", image));
        } else {
            self.put_into_tables(place, &numbers);
        }
        let name = Name::from_symbols(&numbers[of_record::NAME]).map(|name| text_of(&name));
        Some((numbers[of_record::OWNER], name.unwrap_or_default()))
    }

    /// A place without a record, or any.
    pub fn a_place(&mut self) -> usize {
        let free: Vec<usize> = match self.catalogue() {
            Some(catalogue) => (0..PLACES).filter(|&place| catalogue.records[place].is_none()).collect(),
            None => Vec::new(),
        };
        match free.is_empty() {
            true => self.random.index(PLACES),
            false => self.random.pick(&free),
        }
    }

    /// Puts a record's numbers into the tables; the last poke is the one that makes it used.
    pub fn put_into_tables(&mut self, place: usize, numbers: &[u32; of_record::COUNT]) {
        let start = fields::record_cells(place).start;
        for (offset, number) in numbers.iter().enumerate().rev() {
            self.poke(BufferName::Tables, start + offset, *number);
        }
    }

    /// Gives an open new file another shape.
    pub fn reshape_opening(&mut self, user: u32, entry: u32, shape: &Shape) {
        if !self.is_open(user, entry) {
            return;
        }
        let start = fields::opening_cells(user as usize, entry as usize).start;
        for (place, segment) in of_opening::LIST.zip(&shape.segments) {
            self.poke(BufferName::Tables, start + place, u32::from(segment.0));
        }
        self.poke(BufferName::Tables, start + of_opening::END, shape.end);
        if self.random.chance(70) {
            let work = self.random.between(shape.begin, shape.end);
            self.poke(BufferName::Tables, start + of_opening::WORK, work);
        }
        self.poke(BufferName::Tables, start + of_opening::SPECIES, shape.species.number());
        self.poke(BufferName::Tables, start + of_opening::BEGIN, shape.begin);
    }

    /// Puts the end alone, which may break the tables or mend them.
    pub fn move_end(&mut self, user: u32, entry: u32, position: u32) {
        let end = fields::opening_cells(user as usize % 8, entry as usize % 4).start + of_opening::END;
        self.poke(BufferName::Tables, end, position);
    }

    /// Puts both bounds of an open empty file at a position.
    pub fn move_empty_file(&mut self, user: u32, entry: u32, position: u32) {
        if !self.is_open(user, entry) {
            return;
        }
        let start = fields::opening_cells(user as usize, entry as usize).start;
        self.poke(BufferName::Tables, start + of_opening::END, position);
        self.poke(BufferName::Tables, start + of_opening::BEGIN, position);
    }
}
