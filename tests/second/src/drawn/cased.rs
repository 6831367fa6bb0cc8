//! The case in which a full card is written, for counting what lower case costs.

use super::masked::write;
use crate::Entry;

/// In a card of mixed case so many bases of the reference are in upper case, and as many behind them in lower case.
const STRETCH: usize = 300;

/// All of a card's bases in upper case, or all in lower case; or the reference alone in lower case by stretches.
#[derive(Clone, Copy, PartialEq, Eq)]
pub enum Cased {
    Upper,
    Lower,
    Mixed,
}

impl Cased {
    /// By the word for it; upper case has none.
    pub fn named(word: &str) -> Option<Cased> {
        match word {
            "lower" => Some(Cased::Lower),
            "mixed" => Some(Cased::Mixed),
            _ => None,
        }
    }

    /// Takes the word for it off the end, where there is one.
    pub fn taken(words: &mut Vec<String>) -> Cased {
        let cased = words.last().and_then(|word| Cased::named(word));
        if cased.is_some() {
            words.pop();
        }
        cased.unwrap_or(Cased::Upper)
    }

    /// Writes the reference so.
    pub fn reference(self, reference: &mut [u8]) {
        match self {
            Cased::Upper => {}
            Cased::Lower => reference.make_ascii_lowercase(),
            Cased::Mixed => write(reference, |place| place / STRETCH % 2 == 1),
        }
    }

    /// Writes the bytes of alleles so.
    pub fn alleles(self, alleles: &mut [u8]) {
        if self == Cased::Lower {
            alleles.make_ascii_lowercase();
        }
    }

    /// Writes the alleles of entries so.
    pub fn entries(self, entries: &mut [Entry]) {
        for entry in entries {
            self.alleles(&mut entry.reference);
            entry.alts.iter_mut().for_each(|alt| self.alleles(alt));
        }
    }
}
