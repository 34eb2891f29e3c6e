//! What the measured calls cost in plain Rust, with nothing proved: soundness, free segments, write, next, prev, runs of them, two inquiries, save, load, an
//! image's moves up and down and tidying, by the rules of documents 01 and 02 over the same cells.
mod access;
mod bits;
mod distinct;
mod form;
mod free;
mod gate;
mod image;
pub mod layout;
mod lists;
mod means;
mod numbers;
mod openings;
mod packing;
mod perform;
mod placing;
mod runs;
mod soundness;
mod tidy;
mod write;

pub use free::{free_count, lowest_free, lowest_free_by_search};
pub use layout::TABLES;
pub use perform::{perform, perform_singly};
pub use placing::{
    greatest, AS_WIDE_AS_SIGNED, GREATEST_END, GREATEST_SPECIES, MOST_HELD, SEGMENT_CELLS, SIGNED_SPECIES,
    WHOLE_SPECIES,
};
pub use soundness::sound;

/// The one length of an image of form 2 and of form 1, and the greatest begin and end of form 1.
pub const IMAGE: usize = form::New::LENGTH;
pub const OLD_IMAGE: usize = form::Old::LENGTH;
pub const OLD_GREATEST_END: u32 = form::Old::GREATEST_END;

/// "The numbers a refusal carries"
#[derive(Clone, Copy)]
pub enum Refusal {
    User = 1,
    Entry = 2,
    Pointer = 4,
    Permit = 5,
    Below = 6,
    Beyond = 7,
    Segments = 8,
    Room = 9,
    Positions = 10,
    NotNow = 14,
    Species = 19,
    Tables = 20,
    Image = 22,
    TooWide = 23,
    Far = 24,
}

/// "An answer is either done, with its number where there is one, or refused, with one of these inside it"
pub type Answer = Result<u32, Refusal>;
