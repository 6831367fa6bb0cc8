//! The choice for an entry: `+` as written, `-` with the copies exchanged, `0` left out.

/// In rank: `+` before `-` before `0`.
#[derive(Clone, Copy, Debug, PartialEq, Eq, PartialOrd, Ord)]
pub enum Choice {
    Plus,
    Minus,
    Zero,
}

impl Choice {
    /// All choices, by rank.
    pub const BY_RANK: [Choice; 3] = [Choice::Plus, Choice::Minus, Choice::Zero];

    pub fn mark(self) -> u8 {
        match self {
            Choice::Plus => b'+',
            Choice::Minus => b'-',
            Choice::Zero => b'0',
        }
    }

    pub fn is_chosen(self) -> bool {
        self != Choice::Zero
    }

    /// Which of a chosen entry's two copy alleles this choice puts on `copy`.
    pub fn side(self, copy: usize) -> usize {
        match self {
            Choice::Minus => 1 - copy,
            _ => copy,
        }
    }
}

/// The number of chosen entries.
pub fn score(choices: &[Choice]) -> u32 {
    choices.iter().map(|choice| u32::from(choice.is_chosen())).sum()
}
