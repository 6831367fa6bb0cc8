//! Which clusters are large: of 12 or 13 entries, each with an allele of 64 bases, or on thousands of bases, or both.

use super::case::Case;
use crate::clusters::{lists_of, DECIDED_MOST};
use crate::drawn::list::ALLELE_MOST;
use crate::merged::merged;
use crate::Cluster;

/// A cluster is wide that has so many bases from its first start to its largest end.
const WIDE: usize = 2_000;

/// By what makes them large, and behind that by the number of entries.
pub const PLANNED: [(u32, &str); 6] = [
    (0, "12 with alleles of 64"),
    (0, "13 with alleles of 64"),
    (0, "12 on thousands of bases"),
    (0, "13 on thousands of bases"),
    (0, "12 with alleles of 64 on thousands of bases"),
    (0, "13 with alleles of 64 on thousands of bases"),
];

/// The same with what is marked: of 12 entries some are matched, or none is.
pub const MARKED: [(u32, &str); 9] = [
    (0, "matched 12 with alleles of 64"),
    (0, "unmatched 12 with alleles of 64"),
    (0, "13 with alleles of 64"),
    (0, "matched 12 on thousands of bases"),
    (0, "unmatched 12 on thousands of bases"),
    (0, "13 on thousands of bases"),
    (0, "matched 12 with alleles of 64 on thousands of bases"),
    (0, "unmatched 12 with alleles of 64 on thousands of bases"),
    (0, "13 with alleles of 64 on thousands of bases"),
];

/// Whether this is what is told of a large cluster.
pub fn is_large(what: &str) -> bool {
    PLANNED.iter().chain(&MARKED).any(|(_, large)| *large == what)
}

/// What is told of the first large one of these clusters, if there is one, where they are planned only.
pub fn planned(case: &Case, texts: &[Vec<u8>; 2], clusters: &[Cluster]) -> Option<&'static str> {
    let (large, cluster) = first_large(case, texts, clusters)?;
    let which = usize::from(cluster.count as usize > DECIDED_MOST);
    Some(PLANNED[2 * large + which].1)
}

/// The same where they are marked.
pub fn marked(
    case: &Case,
    texts: &[Vec<u8>; 2],
    clusters: &[Cluster],
    marks: &[u8],
) -> Option<&'static str> {
    let (large, Cluster { first, count }) = first_large(case, texts, clusters)?;
    let marks = &marks[first as usize..][..count as usize];
    let which = match marks {
        [b'?', ..] => 2,
        _ => usize::from(marks.iter().all(|mark| *mark == b'0')),
    };
    Some(MARKED[3 * large + which].1)
}

/// With 0 for long alleles, 1 for a wide one and 2 for both.
fn first_large(
    case: &Case,
    texts: &[Vec<u8>; 2],
    clusters: &[Cluster],
) -> Option<(usize, Cluster)> {
    let has_size =
        |cluster: &&Cluster| [DECIDED_MOST, DECIDED_MOST + 1].contains(&(cluster.count as usize));
    let sized: Vec<&Cluster> = clusters.iter().filter(has_size).collect();
    if sized.is_empty() {
        return None;
    }
    let read = |text| crate::read(&case.reference, &case.name, 1, text).expect("accepted");
    let entries = texts.each_ref().map(|text| read(text).entries());
    let lists = entries.each_ref().map(Vec::as_slice);
    let items = merged(lists);
    let large = |cluster: &Cluster| {
        let entries = || lists_of(lists, &items, *cluster).into_iter().flatten();
        let is_long = entries().all(|entry| entry.alleles().any(|one| one.len() == ALLELE_MOST));
        let first = entries().map(|entry| entry.start()).min()?;
        let end = entries().map(|entry| entry.end()).max()?;
        match (is_long, end - first >= WIDE) {
            (false, false) => None,
            (true, false) => Some((0, *cluster)),
            (false, true) => Some((1, *cluster)),
            (true, true) => Some((2, *cluster)),
        }
    };
    sized.into_iter().find_map(large)
}
