//! Clusters: the merged order, cut by the gap rule.

use crate::gap::Current;
use crate::merged::{merged, Item, Lists};

/// The most entries of a cluster that is decided.
pub const DECIDED_MOST: usize = 12;

/// A record of the plan: a cluster's first entry in merged order and its number of entries.
#[derive(Clone, Copy, Debug, Default, PartialEq, Eq)]
pub struct Cluster {
    pub first: u32,
    pub count: u32,
}

/// The clusters of two accepted lists, in merged order.
pub fn clusters(reference: &[u8], lists: Lists) -> Vec<Cluster> {
    let mut clusters: Vec<Cluster> = Vec::new();
    let mut current = Current::default();
    for (number, item) in merged(lists).iter().enumerate() {
        let entry = item.of(lists);
        if number == 0 || current.is_cut(reference, entry.start()) {
            current = Current::default();
            clusters.push(Cluster { first: number as u32, count: 0 });
        }
        current.add(item.list, entry);
        let last = clusters.len() - 1;
        clusters[last].count += 1;
    }
    clusters
}

/// The parts of both lists that are in the cluster. In either list they follow one another,
/// and their own merged order is the cluster's.
pub fn lists_of<'a>(lists: Lists<'a>, items: &[Item], cluster: Cluster) -> Lists<'a> {
    let first = cluster.first as usize;
    let after = first + cluster.count as usize;
    let count = |list, end: usize| items[..end].iter().filter(|item| item.list == list).count();
    [0, 1].map(|list| &lists[list][count(list, first)..count(list, after)])
}
