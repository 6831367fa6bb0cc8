//! Where each entry stands: the call `entries`, counted out from the numbered lines of the two texts.
//!
//! Nothing here asks `merged` for its order or `list` for its lines: those are what this can be held to.

use crate::card::{judge_room, read_both, ENTRIES_MOST};
use crate::clusters::{clusters, Cluster};
use crate::part::{LF, TAB};
use crate::reference;
use crate::refusal::Refusal;

/// Where an entry stands: its list, 1 or 2; its number in that list, from 0; the line of its record in that
/// list's text, from 1; and the number of its cluster, from 0.
#[derive(Clone, Copy, Debug, Default, PartialEq, Eq)]
pub struct Listed {
    pub list: u32,
    pub entry: u32,
    pub line: u32,
    pub cluster: u32,
}

/// Writes one record an entry, in merged order, to the first records lent, and returns their number.
/// The records behind them are unchanged.
pub fn entries(
    reference: &[u8],
    name: &[u8],
    first: &[u8],
    second: &[u8],
    entries: &mut [Listed],
) -> Result<u32, Refusal> {
    let bases = reference::read(reference)?;
    judge_room(entries.len(), ENTRIES_MOST)?;
    let both = read_both(reference, name, first, second)?;
    let plan = clusters(&bases, both.each_ref().map(Vec::as_slice));
    let listed = listed([first, second], &plan);
    entries[..listed.len()].copy_from_slice(&listed);
    Ok(listed.len() as u32)
}

/// The records of two accepted texts with this plan.
fn listed(texts: [&[u8]; 2], plan: &[Cluster]) -> Vec<Listed> {
    let mut listed: Vec<(usize, Listed)> = Vec::new();
    for (list, text) in (1..).zip(texts) {
        let lines = (1..).zip(text.split_inclusive(|byte| *byte == LF));
        let records = lines.filter(|(_, bytes)| !bytes.starts_with(b"#"));
        for (entry, (line, bytes)) in (0..).zip(records) {
            listed.push((pos(bytes), Listed { list, entry, line, cluster: 0 }));
        }
    }
    listed.sort_by_key(|(pos, listed)| (*pos, listed.list, listed.entry));
    let of_clusters = (0..).zip(plan).flat_map(|(number, cluster): (u32, &Cluster)| {
        std::iter::repeat_n(number, cluster.count as usize)
    });
    let with_cluster = |((_, listed), cluster)| Listed { cluster, ..listed };
    listed.into_iter().zip(of_clusters).map(with_cluster).collect()
}

/// The number in the second field of a record that is accepted.
fn pos(record: &[u8]) -> usize {
    let field = record.split(|byte| *byte == TAB).nth(1).expect("ten fields");
    let digits = std::str::from_utf8(field).expect("digits");
    digits.parse().expect("a number")
}
