//! One call of the C library with all that is lent to it, and what the rules demand that it answers
//! and leaves.

use super::expected::expected;
use crate::{Cluster, Listed};

/// What every call is lent, the call itself, and what it must come to.
#[derive(Clone)]
pub struct Case {
    pub reference: Vec<u8>,
    pub name: Vec<u8>,
    pub call: Call,
    pub expected: Told,
}

/// A call, with what only it is given. `out`, the plan of `Plan`, the marks of `Mark`, the plan and the marks of `MarkAll` and
/// the entries of `Entries` are what it may write. `Version` is lent nothing, also no reference and no name.
#[derive(Clone, Debug)]
pub enum Call {
    Allele { text: Vec<u8>, entry: usize, allele: usize },
    Normal { text: Vec<u8>, out: Vec<u8> },
    Plan { texts: [Vec<u8>; 2], plan: Vec<Cluster> },
    Mark { texts: [Vec<u8>; 2], plan: Vec<Cluster>, cluster: usize, marks: Vec<u8> },
    Count { texts: [Vec<u8>; 2], marks: Vec<u8> },
    MarkAll { texts: [Vec<u8>; 2], plan: Vec<Cluster>, marks: Vec<u8> },
    Entries { texts: [Vec<u8>; 2], entries: Vec<Listed> },
    Version,
}

/// What is told of a call.
#[derive(Clone, Debug, PartialEq, Eq)]
pub struct Told {
    pub answer: Answer,
    /// A byte changed that the call may not write: a lent one, of a refused call any, or one beside them.
    pub changed: bool,
    /// Each buffer that the call may write, as it is afterwards.
    pub left: Vec<Vec<u8>>,
}

/// The numbers of `card_answer` in include/card.h, with its one value, of `card_all_marked`, with two, or of `card_counts`,
/// with six.
#[derive(Clone, Debug, PartialEq, Eq)]
pub struct Answer {
    pub number: u32,
    pub list: u32,
    pub line: u32,
    pub place: u32,
    pub values: Vec<u32>,
}

/// A lent buffer with its name.
type Lent = (&'static str, Vec<u8>);

impl Call {
    /// The text of list 1 or of list 2.
    pub fn text(&self, list: u32) -> &[u8] {
        match self {
            Call::Allele { text, .. } | Call::Normal { text, .. } => text,
            Call::Plan { texts, .. }
            | Call::Mark { texts, .. }
            | Call::Count { texts, .. }
            | Call::MarkAll { texts, .. }
            | Call::Entries { texts, .. } => &texts[list as usize - 1],
            Call::Version => &[],
        }
    }

    /// How many lists it is lent.
    pub fn lists(&self) -> u32 {
        match self {
            Call::Version => 0,
            Call::Allele { .. } | Call::Normal { .. } => 1,
            _ => 2,
        }
    }
}

impl Case {
    pub fn new(reference: &[u8], name: &[u8], call: Call) -> Case {
        let (answer, left) = expected(reference, name, &call);
        let expected = Told { answer, changed: false, left };
        Case { reference: reference.to_vec(), name: name.to_vec(), call, expected }
    }

    /// Each lent buffer in the call's order; what the call may write is last.
    pub fn lent(&self) -> Vec<Lent> {
        let own = match &self.call {
            Call::Version => return Vec::new(),
            Call::Allele { text, .. } => vec![("text", text.clone())],
            Call::Normal { text, out } => vec![("text", text.clone()), ("out", out.clone())],
            Call::Plan { texts, plan } => of_two(texts, [("plan", plan_bytes(plan))]),
            Call::Mark { texts, plan, marks, .. } | Call::MarkAll { texts, plan, marks } => {
                of_two(texts, [("plan", plan_bytes(plan)), ("marks", marks.clone())])
            }
            Call::Count { texts, marks } => of_two(texts, [("marks", marks.clone())]),
            Call::Entries { texts, entries } => {
                of_two(texts, [("entries", entries_bytes(entries))])
            }
        };
        let shared = [("reference", self.reference.clone()), ("name", self.name.clone())];
        shared.into_iter().chain(own).collect()
    }

    /// How many of the lent buffers, the last ones, the call may write.
    pub fn writes(&self) -> usize {
        match self.call {
            Call::Allele { .. } | Call::Count { .. } | Call::Version => 0,
            Call::Normal { .. } | Call::Plan { .. } | Call::Mark { .. } | Call::Entries { .. } => 1,
            Call::MarkAll { .. } => 2,
        }
    }

    /// The numbers given, in the call's order.
    pub fn numbers(&self) -> Vec<usize> {
        match self.call {
            Call::Allele { entry, allele, .. } => vec![entry, allele],
            Call::Mark { cluster, .. } => vec![cluster],
            _ => Vec::new(),
        }
    }

    /// How many bytes are lent.
    pub fn size(&self) -> usize {
        self.lent().iter().map(|(_, bytes)| bytes.len()).sum()
    }
}

fn of_two<const COUNT: usize>(texts: &[Vec<u8>; 2], others: [Lent; COUNT]) -> Vec<Lent> {
    let [first, second] = texts.clone();
    [("first", first), ("second", second)].into_iter().chain(others).collect()
}

/// The records as they lie in memory.
pub fn plan_bytes(plan: &[Cluster]) -> Vec<u8> {
    plan.iter().flat_map(|record| [record.first, record.count]).flat_map(u32::to_le_bytes).collect()
}

/// The same of entries.
pub fn entries_bytes(entries: &[Listed]) -> Vec<u8> {
    let numbers = |record: &Listed| [record.list, record.entry, record.line, record.cluster];
    entries.iter().flat_map(numbers).flat_map(u32::to_le_bytes).collect()
}
