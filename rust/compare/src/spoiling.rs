//! What can be the one thing that is wrong with a call: it is refused, and done when this is put right.

#[derive(Clone, Copy, PartialEq, Eq, Debug)]
pub enum Spoiling {
    SpareBit,
    Form1,
    OldLength,
    Bit,
    Segments,
    LengthToRead,
    LengthToWrite,
    End,
}

/// By call, with its words.
pub const SPOILINGS: [(&str, Spoiling, &str); 12] = [
    ("load", Spoiling::SpareBit, "a bit set at a record's end"),
    ("load", Spoiling::Form1, "form number 1"),
    ("load", Spoiling::OldLength, "897 cells"),
    ("up", Spoiling::Bit, "one bit"),
    ("up", Spoiling::Segments, "a number of segments one below the image's"),
    ("up", Spoiling::LengthToRead, "the length of the old image"),
    ("up", Spoiling::LengthToWrite, "the length of the new image"),
    ("down", Spoiling::Bit, "one bit"),
    ("down", Spoiling::Segments, "a number of segments one below the image's"),
    ("down", Spoiling::LengthToRead, "the length of the new image"),
    ("down", Spoiling::LengthToWrite, "the length of the old image"),
    ("down", Spoiling::End, "an end above 16,777,215"),
];

/// Those of a call.
pub fn spoilings_of(call: &str) -> Vec<Spoiling> {
    SPOILINGS.iter().filter(|(word, ..)| *word == call).map(|&(_, spoiling, _)| spoiling).collect()
}

impl Spoiling {
    /// The number of the refusal that it leads to.
    pub fn refusal(self) -> u32 {
        match self {
            Spoiling::End => 24,
            _ => 22,
        }
    }
}
