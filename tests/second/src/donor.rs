//! Donors of a list under a choice for each of its entries, over the whole reference. An entry takes room on a copy, and is in its
//! donor, only where it carries an allele other than REF.

use crate::choice::Choice;
use crate::entry::Entry;

/// The allele other than REF that the entry, so chosen, carries on `copy`: none where it is left out, or carries REF there.
pub fn carried(entry: &Entry, choice: Choice, copy: usize) -> Option<&[u8]> {
    let number = entry.copies[choice.side(copy)];
    (choice.is_chosen() && number != 0).then(|| entry.allele(number))
}

/// Two entries whose REF spans share a place.
pub fn overlap(one: &Entry, other: &Entry) -> bool {
    one.start() < other.end() && other.start() < one.end()
}

/// No two chosen entries overlap on a copy where both carry an allele other than REF.
pub fn is_separate(entries: &[Entry], choices: &[Choice]) -> bool {
    [0, 1].into_iter().all(|copy| {
        let there = all_carried(entries, choices, copy);
        there.iter().enumerate().all(|(number, (entry, _))| {
            let before = &there[..number];
            before.iter().all(|(other, _)| !overlap(entry, other))
        })
    })
}

/// The reference with the spans of those chosen entries that carry an allele other than REF on `copy` replaced by it.
/// They, in POS order as a list has them, must not overlap.
pub fn donor(reference: &[u8], entries: &[Entry], choices: &[Choice], copy: usize) -> Vec<u8> {
    let mut donor = Vec::with_capacity(reference.len());
    let mut place = 0;
    for (entry, allele) in all_carried(entries, choices, copy) {
        donor.extend(&reference[place..entry.start()]);
        donor.extend(allele);
        place = entry.end();
    }
    donor.extend(&reference[place..]);
    donor
}

/// The entries that carry an allele other than REF on `copy`, with it.
fn all_carried<'a>(
    entries: &'a [Entry],
    choices: &[Choice],
    copy: usize,
) -> Vec<(&'a Entry, &'a [u8])> {
    let pairs = entries.iter().zip(choices.iter().copied());
    let with_allele = |(entry, choice)| carried(entry, choice, copy).map(|allele| (entry, allele));
    pairs.filter_map(with_allele).collect()
}
