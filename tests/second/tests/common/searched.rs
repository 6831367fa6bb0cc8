//! The best pair by both searches, which must give the same.

use super::lists::entry;
use second::best::{best, is_legal, Best};
use second::best_pruned::best_pruned;
use second::choice::{score, Choice};
use second::merged::merged;
use second::Entry;

pub fn assert_same(reference: &[u8], lists: [&[Entry]; 2]) -> Best {
    let found = best_pruned(reference, lists);
    assert_eq!(found, best(reference, lists));
    assert!(is_legal(reference, lists, &merged(lists), &found.choices));
    assert_eq!(score(&found.choices), found.score);
    found
}

/// The marks of short records.
pub fn marks(reference: &str, first: &[&str], second: &[&str]) -> String {
    let lists = [first, second].map(|list| list.iter().map(|one| entry(one)).collect::<Vec<_>>());
    let best = assert_same(reference.as_bytes(), lists.each_ref().map(Vec::as_slice));
    best.choices.into_iter().map(|choice| char::from(Choice::mark(choice))).collect()
}
