//! References that repeat a unit of up to 40 bases, and entries that take units of a repeat away or add
//! some: they can stand in many places.

use super::list::{any_bases, ALLELE_MOST};
use super::random::Random;
use super::world::random_copies;
use crate::Entry;

const UNIT_MOST: usize = 40;

/// So many bases of a repeat, with one base changed now and then.
pub fn repeat(random: &mut Random, length: usize) -> Vec<u8> {
    let unit = any_bases(random, 1, UNIT_MOST);
    let mut bases: Vec<u8> = unit.into_iter().cycle().take(length).collect();
    if length > 0 && random.once_in(3) {
        let place = random.below(length);
        bases[place] = *random.pick(b"ACGTN");
    }
    bases
}

/// A span of up to 64 bases with some of its first bases left away, or twice, or both, as two ALTs: as
/// many as its period has, so that the entry gives the same donor elsewhere in a repeat.
pub fn repeat_entry(random: &mut Random, reference: &[u8]) -> Entry {
    let start = random.below(reference.len());
    let length = random.between(1, ALLELE_MOST.min(reference.len() - start));
    let replaced = &reference[start..start + length];
    let is_period = |q: &usize| replaced[*q..] == replaced[..length - q];
    let period = (1..length).find(is_period).unwrap_or(length);
    let mut alts = Vec::new();
    if period < length {
        alts.push(replaced[period..].to_vec());
    }
    if period + length <= ALLELE_MOST && (alts.is_empty() || random.once_in(2)) {
        alts.push([&replaced[..period], replaced].concat());
    }
    if alts.is_empty() {
        alts.push(vec![if replaced[0] == b'A' { b'C' } else { b'A' }]);
    }
    if random.once_in(2) {
        alts.reverse();
    }
    let copies = random_copies(random, alts.len());
    Entry { pos: start + 1, reference: replaced.to_vec(), alts, copies }
}
