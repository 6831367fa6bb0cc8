//! The card's calls, but for `allele` and `entries`. Each judges in document 01's order: 1; 2; list 1; list 2; 17; 16; 18.
//!
//! A refused call writes nothing; all writing stands behind the last judgement. `reference` is as it was lent, `bases` are folded.

use crate::best_pruned::best_pruned;
use crate::choice::Choice;
use crate::clusters::{clusters, lists_of, Cluster, DECIDED_MOST};
use crate::counts::Counts;
use crate::entry::Entry;
use crate::list::{self, RECORDS_MOST};
use crate::merged::{merged, Item, Lists};
use crate::reference;
use crate::refusal::*;
use crate::written::written;

/// As many entries, and so clusters, as two lists can have.
pub const ENTRIES_MOST: usize = 2 * RECORDS_MOST;

const UNDECIDED: u8 = b'?';

/// What is told of an asked cluster.
#[derive(Clone, Copy, Debug, PartialEq, Eq)]
pub enum Marked {
    Score(u32),
    Undecided,
}

/// Writes one record a cluster to the plan's first records and returns their number.
/// The plan's records behind them are unchanged.
pub fn plan(
    reference: &[u8],
    name: &[u8],
    first: &[u8],
    second: &[u8],
    plan: &mut [Cluster],
) -> Result<u32, Refusal> {
    let bases = reference::read(reference)?;
    judge_room(plan.len(), ENTRIES_MOST)?;
    let both = read_both(reference, name, first, second)?;
    let clusters = clusters(&bases, both.each_ref().map(Vec::as_slice));
    plan[..clusters.len()].copy_from_slice(&clusters);
    Ok(clusters.len() as u32)
}

/// Writes the marks of cluster `cluster` of the plan and returns its score, or that it is undecided.
/// All other marks are unchanged.
pub fn mark(
    reference: &[u8],
    name: &[u8],
    first: &[u8],
    second: &[u8],
    plan: &[Cluster],
    cluster: usize,
    marks: &mut [u8],
) -> Result<Marked, Refusal> {
    let bases = reference::read(reference)?;
    judge_room(plan.len(), ENTRIES_MOST)?;
    judge_room(marks.len(), ENTRIES_MOST)?;
    let both = read_both(reference, name, first, second)?;
    let lists = both.each_ref().map(Vec::as_slice);
    let clusters = clusters(&bases, lists);
    if plan[..clusters.len()] != clusters {
        return Err(Refusal::of_call(NOT_THE_PLAN));
    }
    let asked = clusters.get(cluster).ok_or(Refusal::of_call(NO_CLUSTER))?;
    Ok(mark_cluster(&bases, lists, &merged(lists), *asked, marks))
}

/// Leaves what `plan`, and then `mark` of each cluster, leave. Returns the number of clusters and
/// the score summed over the decided ones.
pub fn mark_all(
    reference: &[u8],
    name: &[u8],
    first: &[u8],
    second: &[u8],
    plan: &mut [Cluster],
    marks: &mut [u8],
) -> Result<(u32, u32), Refusal> {
    let bases = reference::read(reference)?;
    judge_room(plan.len(), ENTRIES_MOST)?;
    judge_room(marks.len(), ENTRIES_MOST)?;
    let both = read_both(reference, name, first, second)?;
    let lists = both.each_ref().map(Vec::as_slice);
    let clusters = clusters(&bases, lists);
    let items = merged(lists);
    plan[..clusters.len()].copy_from_slice(&clusters);
    let mut total = 0;
    for &cluster in &clusters {
        if let Marked::Score(score) = mark_cluster(&bases, lists, &items, cluster, marks) {
            total += score;
        }
    }
    Ok((clusters.len() as u32, total))
}

/// The counts of list 1's marks and of list 2's. Marks behind those of the entries are not read.
pub fn count(
    reference: &[u8],
    name: &[u8],
    first: &[u8],
    second: &[u8],
    marks: &[u8],
) -> Result<[Counts; 2], Refusal> {
    reference::read(reference)?;
    judge_room(marks.len(), ENTRIES_MOST)?;
    let both = read_both(reference, name, first, second)?;
    let items = merged(both.each_ref().map(Vec::as_slice));
    let marked = |list| items.iter().zip(marks).filter(move |(item, _)| item.list == list);
    Ok([0, 1].map(|list| Counts::of(marked(list).map(|(_, mark)| *mark))))
}

/// Writes the list in normal form and returns the number of bytes written.
/// The room behind them is unchanged.
pub fn normal(
    reference: &[u8],
    name: &[u8],
    text: &[u8],
    room: &mut [u8],
) -> Result<usize, Refusal> {
    let bases = reference::read(reference)?;
    judge_room(room.len(), text.len())?;
    let list = list::read(reference, name, 1, text)?;
    let written = written(&bases, text, &list);
    room[..written.len()].copy_from_slice(&written);
    Ok(written.len())
}

/// Row 2: the lent room is below what the call needs.
pub(crate) fn judge_room(lent: usize, needed: usize) -> Result<(), Refusal> {
    if lent < needed {
        return Err(Refusal::of_call(SMALL_ROOM));
    }
    Ok(())
}

/// The entries of list 1 and of list 2, judged in this order.
pub(crate) fn read_both(
    reference: &[u8],
    name: &[u8],
    first: &[u8],
    second: &[u8],
) -> Result<[Vec<Entry>; 2], Refusal> {
    let first = list::read(reference, name, 1, first)?;
    let second = list::read(reference, name, 2, second)?;
    Ok([first.entries(), second.entries()])
}

/// Writes the marks of one cluster, and no other.
fn mark_cluster(
    bases: &[u8],
    lists: Lists,
    items: &[Item],
    cluster: Cluster,
    marks: &mut [u8],
) -> Marked {
    let first = cluster.first as usize;
    let marks = &mut marks[first..first + cluster.count as usize];
    if marks.len() > DECIDED_MOST {
        marks.fill(UNDECIDED);
        return Marked::Undecided;
    }
    let best = best_pruned(bases, lists_of(lists, items, cluster));
    for (mark, choice) in marks.iter_mut().zip(best.choices) {
        *mark = Choice::mark(choice);
    }
    Marked::Score(best.score)
}
