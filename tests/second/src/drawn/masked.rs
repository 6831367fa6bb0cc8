//! Lower case in references and lists: genome builds mark repeats so, and callers copy it, or do not.

use super::list::{Drawn, Fields, ALT, POS, REF};
use super::random::Random;
use crate::Entry;

/// How a list writes its alleles on a masked reference.
#[derive(Clone, Copy)]
enum Way {
    Upper,
    Lower,
    /// As the reference has the bases from POS on.
    Copied,
    /// Each base in any case.
    Any,
}

const WAYS: [Way; 5] = [Way::Upper, Way::Lower, Way::Copied, Way::Copied, Way::Any];

/// Masks the reference of these lists, which is one, and their alleles, each list in its own way. Half of the time all stays in
/// upper case.
pub fn masked<const LISTS: usize>(
    random: &mut Random,
    mut lists: [Drawn; LISTS],
) -> [Drawn; LISTS] {
    if random.once_in(2) {
        return lists;
    }
    let mask = mask(random, lists[0].reference.len());
    for list in &mut lists {
        write(&mut list.reference, |place| mask[place]);
        let way = *random.pick(&WAYS);
        for fields in &mut list.records {
            mask_alleles(random, fields, &mask, way);
        }
    }
    lists
}

/// Which of so many bases are in lower case: none, all, any of them, or stretches.
fn mask(random: &mut Random, length: usize) -> Vec<bool> {
    match random.below(6) {
        0 => vec![false; length],
        1 => vec![true; length],
        2 => (0..length).map(|_| random.once_in(2)).collect(),
        _ => stretches(random, length),
    }
}

/// Bases in upper and in lower case by turns.
pub fn stretches(random: &mut Random, length: usize) -> Vec<bool> {
    let (mut mask, mut is_lower) = (Vec::new(), random.once_in(2));
    let longest = *random.pick(&[3, 12, 60]);
    while mask.len() < length {
        mask.resize(mask.len() + random.between(1, longest), is_lower);
        is_lower = !is_lower;
    }
    mask.truncate(length);
    mask
}

/// Masks the alleles of an entry on a reference with this mask, each entry in its own way.
pub fn mask_entry(random: &mut Random, entry: &mut Entry, mask: &[bool]) {
    let (way, start) = (*random.pick(&WAYS), entry.start());
    for allele in entry.alts.iter_mut().chain([&mut entry.reference]) {
        mask_allele(random, allele, &mask[start..], way);
    }
}

fn mask_alleles(random: &mut Random, fields: &mut Fields, mask: &[bool], way: Way) {
    let pos: usize = String::from_utf8_lossy(&fields[POS]).parse().expect("a number");
    for field in [REF, ALT] {
        for allele in fields[field].split_mut(|byte| *byte == b',') {
            mask_allele(random, allele, &mask[pos - 1..], way);
        }
    }
}

/// The mask is that of the reference from the allele's start on.
fn mask_allele(random: &mut Random, allele: &mut [u8], mask: &[bool], way: Way) {
    write(allele, |place| match way {
        Way::Upper => false,
        Way::Lower => true,
        // Behind the reference's end, as its last base.
        Way::Copied => mask[place.min(mask.len() - 1)],
        Way::Any => random.once_in(2),
    });
}

/// Puts those bases into lower case of which this is true.
pub fn write(bases: &mut [u8], mut is_lower: impl FnMut(usize) -> bool) {
    for (place, base) in bases.iter_mut().enumerate() {
        if is_lower(place) {
            base.make_ascii_lowercase();
        }
    }
}

/// The same letters, of which one at least has the other case.
pub fn in_another_case(random: &mut Random, letters: &[u8]) -> Vec<u8> {
    let mut letters = letters.to_vec();
    if letters.is_empty() {
        return letters;
    }
    let (one, others) = (random.below(letters.len()), *random.pick(&[1, 2, usize::MAX]));
    for (place, letter) in letters.iter_mut().enumerate() {
        if letter.is_ascii_alphabetic() && (place == one || random.once_in(others)) {
            *letter ^= 0x20;
        }
    }
    letters
}
