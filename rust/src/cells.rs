//! A row of cells, owned or lent.

use std::ops::{Deref, DerefMut};

pub enum Cells<'a> {
    Owned(Vec<u32>),
    Lent(&'a mut [u32]),
}

impl Cells<'_> {
    pub fn into_owned(self) -> Vec<u32> {
        match self {
            Cells::Owned(cells) => cells,
            Cells::Lent(cells) => cells.to_vec(),
        }
    }
}

impl Deref for Cells<'_> {
    type Target = [u32];

    fn deref(&self) -> &[u32] {
        match self {
            Cells::Owned(cells) => cells,
            Cells::Lent(cells) => cells,
        }
    }
}

impl DerefMut for Cells<'_> {
    fn deref_mut(&mut self) -> &mut [u32] {
        match self {
            Cells::Owned(cells) => cells,
            Cells::Lent(cells) => cells,
        }
    }
}
