//! What a list's marks count, and so its entries: matched, unmatched and undecided.

/// A byte that is none of the four marks is counted nowhere.
#[derive(Clone, Copy, Debug, Default, PartialEq, Eq)]
pub struct Counts {
    pub matched: u32,
    pub unmatched: u32,
    pub undecided: u32,
}

impl Counts {
    pub fn of(marks: impl IntoIterator<Item = u8>) -> Counts {
        let mut counts = Counts::default();
        for mark in marks {
            match mark {
                b'+' | b'-' => counts.matched += 1,
                b'0' => counts.unmatched += 1,
                b'?' => counts.undecided += 1,
                _ => {}
            }
        }
        counts
    }

    /// Matched, unmatched, undecided: the order in which they are printed.
    pub fn numbers(self) -> [u32; 3] {
        [self.matched, self.unmatched, self.undecided]
    }
}
