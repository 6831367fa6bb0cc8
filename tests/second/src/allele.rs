//! The call `allele`: an allele is shown where it stands, so with the bytes that were lent.

use crate::list;
use crate::reference;
use crate::refusal::{Refusal, NO_ALLELE};

/// An allele, shown as a part of the reference or of the list's text.
#[derive(Clone, Copy, Debug, PartialEq, Eq)]
pub enum Shown {
    Reference { start: usize, length: usize },
    Text { start: usize, length: usize },
}

impl Shown {
    /// The bytes shown, where `reference` and `text` are those of the call.
    pub fn bytes<'a>(self, reference: &'a [u8], text: &'a [u8]) -> &'a [u8] {
        match self {
            Shown::Reference { start, length } => &reference[start..start + length],
            Shown::Text { start, length } => &text[start..start + length],
        }
    }
}

/// Shows allele number `allele` of entry number `entry`: 0 in the reference, 1 or 2 in the text.
pub fn allele(
    reference: &[u8],
    name: &[u8],
    text: &[u8],
    entry: usize,
    allele: usize,
) -> Result<Shown, Refusal> {
    reference::read(reference)?;
    let list = list::read(reference, name, 1, text)?;
    let no_allele = Refusal::of_call(NO_ALLELE);
    let record = list.records.get(entry).ok_or(no_allele)?;
    if allele == 0 {
        let (start, length) = (record.entry.start(), record.entry.reference.len());
        return Ok(Shown::Reference { start, length });
    }
    let part = record.alts.get(allele - 1).ok_or(no_allele)?;
    let (start, length) = (part.start, part.length);
    Ok(Shown::Text { start, length })
}
