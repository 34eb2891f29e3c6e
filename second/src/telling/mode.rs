//! What a history dwells on.

#[derive(Clone, Copy, PartialEq, Eq, Debug)]
pub enum Mode {
    /// Everything.
    Mixed,
    /// Calls and looks alone: no pokes, no wrong lengths, no bad lines.
    Calm,
    /// Stores of few segments, which are soon full.
    Small,
    /// Positions near the greatest end, files of 32 segments.
    Edge,
    /// Damaged tables and images, wrong lengths.
    Damage,
    /// Images moved from form to form, damaged and whole.
    Moves,
    /// Bad lines and odd bytes.
    Bytes,
}

impl Mode {
    /// In the order of their numbers.
    pub const ALL: [(&'static str, Mode); 7] = [
        ("mixed", Mode::Mixed),
        ("calm", Mode::Calm),
        ("small", Mode::Small),
        ("edge", Mode::Edge),
        ("damage", Mode::Damage),
        ("moves", Mode::Moves),
        ("bytes", Mode::Bytes),
    ];

    pub fn from_word(word: &str) -> Option<Mode> {
        Mode::ALL.iter().find(|(name, _)| *name == word).map(|&(_, mode)| mode)
    }
}

#[cfg(test)]
mod tests {
    use super::*;

    #[test]
    fn all_by_number() {
        let numbers: Vec<usize> = Mode::ALL.iter().map(|&(_, mode)| mode as usize).collect();
        assert_eq!(numbers, (0..Mode::ALL.len()).collect::<Vec<usize>>());
        assert!(Mode::ALL.iter().all(|&(word, mode)| Mode::from_word(word) == Some(mode)));
    }
}
