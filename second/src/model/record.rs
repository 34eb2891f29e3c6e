//! A permanent file as the catalogue keeps it.

use super::file::File;
use crate::rules::name::Name;

#[derive(Clone, PartialEq, Eq, Debug)]
pub struct Record {
    pub name: Name,
    pub owner: usize,
    pub private: bool,
    pub file: File,
}
