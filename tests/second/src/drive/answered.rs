//! What a call that is not refused did: by which of these an answer is of its kind.

use super::case::{Call, Case};
use super::{large, room};
use crate::bases::folded;
use crate::card::ENTRIES_MOST;
use crate::normal_loop::normal_loop;
use crate::Cluster;

pub const OF_ALLELE: [(u32, &str); 2] = [(0, "reference"), (1, "text")];
pub const OF_NORMAL: [(u32, &str); 4] =
    [(0, "as read"), (0, "reordered"), (0, "shorter"), (0, "moved")];
pub const OF_PLAN: [(u32, &str); 4] = [(0, "none"), (0, "one"), (0, "several"), (0, "full")];
pub const OF_MARK: [(u32, &str); 5] =
    [(0, "up to 9"), (0, "10 or 11"), (0, "12"), (0, "13"), (0, "above 13")];
pub const OF_COUNT: [(u32, &str); 4] =
    [(0, "no entry"), (0, "marks alone"), (0, "other bytes"), (0, "full")];
pub const OF_MARK_ALL: [(u32, &str); 4] =
    [(0, "no entry"), (0, "decided"), (0, "some undecided"), (0, "full")];
pub const OF_ENTRIES: [(u32, &str); 5] =
    [(0, "no entry"), (0, "one list"), (0, "both lists"), (0, "equal POS"), (0, "full")];
pub const OF_VERSION: [(u32, &str); 1] = [(0, "the header's")];

/// What the call of a case that is not refused did.
pub fn answered(case: &Case) -> &'static str {
    match &case.call {
        Call::Allele { .. } => OF_ALLELE[(case.expected.answer.list == 1) as usize].1,
        Call::Normal { text, .. } => normal(case, text),
        Call::Plan { texts, .. } => planned(case, texts),
        Call::Mark { texts, plan, cluster, .. } => {
            let cluster = plan[*cluster];
            let large = large::marked(case, texts, &[cluster], &case.expected.left[0]);
            large.unwrap_or(OF_MARK[entries(cluster.count)].1)
        }
        Call::Count { texts, .. } => counted(case, texts),
        Call::MarkAll { texts, .. } => marked(case, texts),
        Call::Entries { texts, .. } => listed(case, texts),
        Call::Version => OF_VERSION[0].1,
    }
}

fn normal(case: &Case, text: &[u8]) -> &'static str {
    let length = case.expected.answer.values[0] as usize;
    let list = crate::read(&case.reference, &case.name, 1, text).expect("accepted");
    let bases = folded(&case.reference);
    let pos = list.records.iter().map(|record| normal_loop(&bases, &record.entry).pos);
    // Its alleles may be in upper case now.
    let what = if case.expected.left[0][..length].eq_ignore_ascii_case(text) {
        0
    } else if !pos.is_sorted() {
        1
    } else if length < text.len() {
        2
    } else {
        3
    };
    OF_NORMAL[what].1
}

/// POS of each entry of list 1 and of list 2.
fn positions(case: &Case, texts: &[Vec<u8>; 2]) -> [Vec<usize>; 2] {
    let read = |text| crate::read(&case.reference, &case.name, 1, text).expect("accepted");
    texts.each_ref().map(|text| read(text).records.iter().map(|record| record.entry.pos).collect())
}

fn counted(case: &Case, texts: &[Vec<u8>; 2]) -> &'static str {
    let entries: usize = positions(case, texts).iter().map(Vec::len).sum();
    let marks: u32 = case.expected.answer.values.iter().sum();
    let what = match entries {
        0 => 0,
        ENTRIES_MOST => 3,
        _ if marks as usize == entries => 1,
        _ => 2,
    };
    OF_COUNT[what].1
}

fn marked(case: &Case, texts: &[Vec<u8>; 2]) -> &'static str {
    let entries = positions(case, texts).iter().map(Vec::len).sum();
    let marks = &case.expected.left[1];
    let what = match entries {
        0 => 0,
        ENTRIES_MOST => 3,
        _ if marks[..entries].contains(&b'?') => 2,
        _ => 1,
    };
    large::marked(case, texts, &left_plan(case), marks).unwrap_or(OF_MARK_ALL[what].1)
}

fn planned(case: &Case, texts: &[Vec<u8>; 2]) -> &'static str {
    let plan = left_plan(case);
    large::planned(case, texts, &plan).unwrap_or(OF_PLAN[clusters(plan.len())].1)
}

/// What overlap does in the marks that an answered call left.
pub fn of_marks(case: &Case) -> Vec<&'static str> {
    let (texts, plan, marks) = match &case.call {
        _ if case.expected.answer.number != 0 => return Vec::new(),
        Call::Mark { texts, plan, cluster, .. } => {
            (texts, vec![plan[*cluster]], &case.expected.left[0])
        }
        Call::MarkAll { texts, .. } => (texts, left_plan(case), &case.expected.left[1]),
        _ => return Vec::new(),
    };
    let texts = texts.each_ref().map(Vec::as_slice);
    room::found(&case.reference, &case.name, texts, &plan, marks)
}

/// The records of the plan that an answered call left.
pub fn left_plan(case: &Case) -> Vec<Cluster> {
    let number = |bytes: &[u8]| u32::from_le_bytes(bytes.try_into().expect("four bytes"));
    let record = |bytes: &[u8]| Cluster { first: number(&bytes[..4]), count: number(&bytes[4..]) };
    let records = case.expected.left[0].chunks(8).map(record);
    records.take(case.expected.answer.values[0] as usize).collect()
}

fn listed(case: &Case, texts: &[Vec<u8>; 2]) -> &'static str {
    let [first, second] = positions(case, texts);
    let what = match (first.len(), second.len()) {
        (0, 0) => 0,
        (0, _) | (_, 0) => 1,
        (one, two) if one + two == ENTRIES_MOST => 4,
        _ if first.iter().any(|pos| second.contains(pos)) => 3,
        _ => 2,
    };
    OF_ENTRIES[what].1
}

fn clusters(count: usize) -> usize {
    match count {
        0 | 1 => count,
        ENTRIES_MOST => 3,
        _ => 2,
    }
}

fn entries(count: u32) -> usize {
    match count {
        ..=9 => 0,
        10 | 11 => 1,
        12 => 2,
        13 => 3,
        _ => 4,
    }
}
