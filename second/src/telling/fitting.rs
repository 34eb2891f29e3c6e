//! Lists made to fit a species, and lists that fit but for one number, at which the run stops.

use super::teller::Teller;
use crate::rules::element::{Element, Kind};
use crate::rules::species::Species;
use crate::text::line::{BufferName, LISTS};

/// More cells than this are not poked to make a list fit.
const MOST_MENDED: usize = 6;

impl Teller {
    /// The first of so many cells of a list that a file of this species would refuse, or as many where all fit.
    fn fitting_cells(&self, list: usize, species: Species, length: usize) -> usize {
        let takes = |cell: &usize| species.takes(Element::from(self.cell(BufferName::List(list), *cell)));
        (0..length).take_while(takes).count()
    }

    /// The list of which more cells fit.
    pub fn the_list_that_fits(&mut self, species: Species, length: usize) -> usize {
        let fitting = |list: &usize| self.fitting_cells(*list, species, length);
        (0..LISTS).max_by_key(fitting).unwrap_or(0)
    }

    /// Mostly the first numbers that are too wide are exchanged, and the list is lent up to the next one or a little
    /// further; now and then one that fits is exchanged for one that is too wide.
    pub fn make_fit(&mut self, list: usize, species: Species) {
        let lent = self.lent(BufferName::List(list));
        if self.random.chance(10) {
            return;
        }
        // A calm history pokes nothing.
        if !self.is_calm() {
            self.mend(list, species, lent);
        }
        let fitting = self.fitting_cells(list, species, lent);
        if fitting < lent {
            let length = fitting + self.random.pick(&[0, 0, 0, 1, 5]);
            self.lend_list(list, length.min(lent) as u32);
        } else if !self.is_calm() && self.random.chance(12) {
            self.spoil(list, species);
        }
    }

    fn mend(&mut self, list: usize, species: Species, lent: usize) {
        for _ in 0..MOST_MENDED {
            let fitting = self.fitting_cells(list, species, lent);
            if fitting == lent {
                return;
            }
            let value = self.a_fitting_number(Kind::Plain, species.width());
            self.poke(BufferName::List(list), fitting, value as u32);
        }
    }

    /// A number that is too wide, mostly among the first ones, as a run may be stopped otherwise before it comes so far.
    pub fn spoil(&mut self, list: usize, species: Species) {
        let lent = self.lent(BufferName::List(list));
        let number = match species.kind() {
            Kind::Plain => self.a_number_out_of_range(species),
            Kind::Signed => None,
        };
        if let (Some(number), true) = (number, lent > 0) {
            let limit = self.random.pick(&[lent, lent.min(4)]);
            let cell = self.random.index(limit);
            self.poke(BufferName::List(list), cell, number as u32);
        }
    }
}
