//! How much a search may have to try, so that few calls are made that take long.

use super::two_lists::TwoLists;
use crate::bases::folded;
use crate::best::is_legal;
use crate::choice::Choice;
use crate::clusters::{clusters, lists_of, DECIDED_MOST};
use crate::donor::carried;
use crate::merged::{merged, Lists};
use crate::{Cluster, Entry};

/// A cluster of more strings of choices without an overlap is searched only once in `COSTLY` times.
pub const STRINGS_MOST: usize = 7_000;
pub const COSTLY: usize = 20;

/// For each cluster of these lists how many strings of choices have no overlap: so many are tried for it, none
/// for an undecided one, and one where all of it matches as written. Lists that are refused have no cluster.
pub fn strings(two: &TwoLists) -> Vec<usize> {
    let TwoLists { reference, name, texts } = two;
    let [Ok(first), Ok(second)] =
        texts.each_ref().map(|text| crate::read(reference, name, 1, text))
    else {
        return Vec::new();
    };
    let bases = &folded(reference);
    let entries = [first.entries(), second.entries()];
    let lists = entries.each_ref().map(Vec::as_slice);
    let items = merged(lists);
    let strings = |cluster: &Cluster| {
        if cluster.count as usize > DECIDED_MOST {
            return 0;
        }
        let lists = lists_of(lists, &items, *cluster);
        let strings = lists.map(|list| strings_from(list, [0, 0])).iter().product();
        match strings > STRINGS_MOST && all_match(bases, lists) {
            true => 1,
            false => strings,
        }
    };
    clusters(bases, lists).iter().map(strings).collect()
}

/// Whether the first string, which chooses every entry as written, is legal.
fn all_match(bases: &[u8], lists: Lists) -> bool {
    let items = merged(lists);
    is_legal(bases, lists, &items, &vec![Choice::Plus; items.len()])
}

/// The strings of choices for entries of one list: on each copy none takes room that starts before its end of `ends`.
fn strings_from(entries: &[Entry], ends: [usize; 2]) -> usize {
    let Some((entry, rest)) = entries.split_first() else { return 1 };
    let with = |choice: &Choice| {
        let takes_room = [0, 1].map(|copy| carried(entry, *choice, copy).is_some());
        let overlaps = |copy: usize| takes_room[copy] && entry.start() < ends[copy];
        if overlaps(0) || overlaps(1) {
            return 0;
        }
        let end = |copy: usize| if takes_room[copy] { entry.end() } else { ends[copy] };
        strings_from(rest, [end(0), end(1)])
    };
    Choice::BY_RANK.iter().map(with).sum()
}
