//! What the rules would come to if bases were equal as bytes only: so that a run can tell the calls in which lower case decides.

use super::case::Case;
use crate::bases::folded;
use crate::best_pruned::best_pruned;
use crate::clusters::{clusters, lists_of, DECIDED_MOST};
use crate::merged::merged;
use crate::normal_loop::normal_loop;
use crate::record::Record;
use crate::{Cluster, Entry};

/// The entries of an accepted list.
pub struct Entries {
    pub folded: Vec<Entry>,
    /// The same with the bytes that were lent.
    pub lent: Vec<Entry>,
}

impl Entries {
    pub fn of(case: &Case, text: &[u8]) -> Entries {
        let list = crate::read(&case.reference, &case.name, 1, text).expect("accepted");
        let lent = |record: &Record| Entry {
            reference: record.reference.of(text).to_vec(),
            alts: record.alts.iter().map(|alt| alt.of(text).to_vec()).collect(),
            ..record.entry
        };
        Entries { folded: list.entries(), lent: list.records.iter().map(lent).collect() }
    }

    /// Where each entry starts, and where its normal form does.
    pub fn moves(&self, case: &Case) -> Vec<(usize, usize)> {
        let bases = folded(&case.reference);
        let start = |entry: &Entry| (entry.start(), normal_loop(&bases, entry).start());
        self.folded.iter().map(start).collect()
    }

    /// Whether an entry would have another normal form.
    pub fn forms_differ(&self, case: &Case) -> bool {
        let bases = folded(&case.reference);
        let shape = |form: Entry| (form.pos, form.alleles().map(<[u8]>::len).collect::<Vec<_>>());
        let form = |entry| shape(normal_loop(&bases, entry));
        let by_bytes = |entry| shape(normal_loop(&case.reference, entry));
        self.folded.iter().zip(&self.lent).any(|(folded, lent)| form(folded) != by_bytes(lent))
    }
}

/// Whether the gap rule would cut elsewhere.
pub fn clusters_differ(case: &Case, lists: &[Entries]) -> bool {
    let entries = [0, 1].map(|list| &lists[list].folded[..]);
    clusters(&folded(&case.reference), entries) != clusters(&case.reference, entries)
}

/// Whether one of these clusters would have other marks.
pub fn marks_differ(case: &Case, lists: &[Entries], clusters: &[Cluster]) -> bool {
    let bases = folded(&case.reference);
    let folded = [0, 1].map(|list| &lists[list].folded[..]);
    let lent = [0, 1].map(|list| &lists[list].lent[..]);
    let items = merged(folded);
    let mut decided = clusters.iter().filter(|cluster| cluster.count as usize <= DECIDED_MOST);
    decided.any(|cluster| {
        let by_bytes = best_pruned(&case.reference, lists_of(lent, &items, *cluster));
        best_pruned(&bases, lists_of(folded, &items, *cluster)) != by_bytes
    })
}
