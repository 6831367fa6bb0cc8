//! The gap rule: where the merged order is cut into clusters.

use crate::entry::Entry;

/// What is kept for the current cluster: b, and for each list j the sums A_j and B_j.
#[derive(Default)]
pub struct Current {
    largest_end: usize,
    shrink: [usize; 2],
    growth: [usize; 2],
}

impl Current {
    /// Adds an entry of `list`, 0 for list 1 and 1 for list 2.
    pub fn add(&mut self, list: usize, entry: &Entry) {
        let lengths = entry.copy_alleles().map(<[u8]>::len);
        let (shorter, longer) = (lengths[0].min(lengths[1]), lengths[0].max(lengths[1]));
        let replaced = entry.reference.len();
        self.largest_end = self.largest_end.max(entry.end());
        self.shrink[list] += replaced.saturating_sub(shorter);
        self.growth[list] += longer.saturating_sub(replaced);
    }

    /// g = max(B_1 + A_2, B_2 + A_1).
    fn g(&self) -> usize {
        (self.growth[0] + self.shrink[1]).max(self.growth[1] + self.shrink[0])
    }

    /// Whether to cut before the next entry, which starts at `start`.
    pub fn is_cut(&self, reference: &[u8], start: usize) -> bool {
        let g = self.g();
        start >= self.largest_end && (g == 0 || is_wide(&reference[self.largest_end..start], g))
    }
}

/// The gap is longer than g and has no period q with 1 <= q <= g.
fn is_wide(gap: &[u8], g: usize) -> bool {
    gap.len() > g && !(1..=g).any(|q| has_period(gap, q))
}

/// Bases q apart are always equal.
fn has_period(gap: &[u8], q: usize) -> bool {
    gap.iter().zip(gap.iter().skip(q)).all(|(one, other)| one == other)
}
