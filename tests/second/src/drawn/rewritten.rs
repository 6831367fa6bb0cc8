//! Entries written in another way that gives the same donors, mostly.

use super::random::Random;
use crate::normal_form::{forms, reference_and_donors};
use crate::Entry;

/// The longest span that entries are merged to, and so far below the longest allele.
const NEAR: usize = 20;

/// Each entry is kept, dropped, put in another form, split, merged with the one before, or has its
/// copies exchanged.
pub fn rewritten(random: &mut Random, reference: &[u8], entries: &[Entry]) -> Vec<Entry> {
    let mut written: Vec<Entry> = Vec::new();
    for entry in entries {
        let mut entry = match random.once_in(3) {
            true => entry.clone(),
            false => other_form(random, reference, entry),
        };
        if random.once_in(3) {
            entry.copies.reverse();
        }
        match random.below(6) {
            0 => {}
            1 | 2 => written.extend(split(random, &entry)),
            3 => written = merge(reference, written, entry),
            _ => written.push(entry),
        }
    }
    written
}

/// The entry with more or fewer bases around it, or moved along a repeat; small alleles are likely.
fn other_form(random: &mut Random, reference: &[u8], entry: &Entry) -> Entry {
    let mut forms = forms(&reference_and_donors(reference, entry), entry.copies);
    forms.retain(|form| form.reference.len() <= 6);
    random.pick(&forms).clone()
}

/// The entry as two that meet; a half that changes nothing is left away.
fn split(random: &mut Random, entry: &Entry) -> Vec<Entry> {
    let [alt] = &entry.alts[..] else { return vec![entry.clone()] };
    if entry.reference.len() < 2 || alt.len() < 2 {
        return vec![entry.clone()];
    }
    let (left, right) = entry.reference.split_at(random.between(1, entry.reference.len() - 1));
    let (left_alt, right_alt) = alt.split_at(random.between(1, alt.len() - 1));
    let half = |pos, reference: &[u8], alt: &[u8]| {
        let (reference, alts) = (reference.to_vec(), vec![alt.to_vec()]);
        Entry { pos, reference, alts, copies: entry.copies }
    };
    let halves = [half(entry.pos, left, left_alt), half(entry.pos + left.len(), right, right_alt)];
    halves.into_iter().filter(|half| half.reference != half.alts[0]).collect()
}

/// The last entry and this one as one, with the reference between them, where they are near and
/// have the same genotype.
fn merge(reference: &[u8], mut written: Vec<Entry>, entry: Entry) -> Vec<Entry> {
    match written.last_mut() {
        Some(last)
            if last.copies == entry.copies
                && last.alts.len() == 1
                && entry.alts.len() == 1
                && last.end() <= entry.start()
                && entry.end() <= last.start() + NEAR =>
        {
            let between = &reference[last.end()..entry.start()];
            let joined = |left: &[u8], right: &[u8]| [left, between, right].concat();
            last.alts = vec![joined(&last.alts[0], &entry.alts[0])];
            last.reference = joined(&last.reference, &entry.reference);
        }
        _ => written.push(entry),
    }
    written.retain(|entry| entry.reference != entry.alts[0]);
    written
}
