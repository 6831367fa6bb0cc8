//! Small random references with two lists. Repeats are common, so that entries can be written in
//! several ways, and most of the second list is the first, written in another way.

use super::opposite::opposite_lists;
use super::random::Random;
use super::rewritten::rewritten;
use crate::Entry;

/// In one of so many worlds, many entries of a list overlap.
const OVERLAPPING: usize = 4;

pub struct World {
    pub reference: Vec<u8>,
    pub lists: [Vec<Entry>; 2],
}

impl World {
    /// A world with at most `most` entries in both lists together.
    pub fn new(random: &mut Random, most: usize) -> World {
        if random.once_in(OVERLAPPING) {
            return World::overlapping(random, most);
        }
        let reference = random_reference(random);
        let lists = any_lists(random, &reference, most);
        World::of(random, reference, lists, most)
    }

    /// The same where many entries of a list overlap.
    pub fn overlapping(random: &mut Random, most: usize) -> World {
        let reference = random_reference(random);
        let lists = opposite_lists(random, &reference, most);
        World::of(random, reference, lists, most)
    }

    /// With any entries more in the second list, or fewer, and with either list first.
    fn of(random: &mut Random, reference: Vec<u8>, lists: [Vec<Entry>; 2], most: usize) -> World {
        let [first, mut second] = lists;
        while random.once_in(3) {
            second.push(random_entry(random, &reference));
        }
        while first.len() + second.len() > most {
            second.remove(random.below(second.len()));
        }
        second.sort_by_key(|entry| entry.pos);
        let lists = if random.once_in(2) { [first, second] } else { [second, first] };
        World { reference, lists }
    }

    pub fn lists(&self) -> [&[Entry]; 2] {
        self.lists.each_ref().map(Vec::as_slice)
    }
}

/// Any entries, and the same written in another way, or none.
fn any_lists(random: &mut Random, reference: &[u8], most: usize) -> [Vec<Entry>; 2] {
    let mut first: Vec<Entry> =
        (0..random.between(0, most.div_ceil(2))).map(|_| random_entry(random, reference)).collect();
    if random.once_in(8) {
        first.truncate(first.len().saturating_sub(2));
        first.extend(undone(random, reference));
    }
    first.sort_by_key(|entry| entry.pos);
    let second = match random.once_in(8) {
        true => Vec::new(),
        false => rewritten(random, reference, &first),
    };
    [first, second]
}

/// 3 to 120 bases: a unit repeated with a base changed here and there, or bases of a small alphabet.
pub fn random_reference(random: &mut Random) -> Vec<u8> {
    let alphabet = random.pick(&["AC", "AC", "ACG", "ACGTN", "AN"]).as_bytes();
    let longest = *random.pick(&[9, 24, 60, 120]);
    let length = random.between(3, longest);
    let unit: Vec<u8> = (0..random.between(1, 3)).map(|_| *random.pick(alphabet)).collect();
    let changes = *random.pick(&[1_000, 8, 4, 1]);
    let base = |place: usize| match random.once_in(changes) {
        true => *random.pick(alphabet),
        false => unit[place % unit.len()],
    };
    (0..length).map(base).collect()
}

/// Any entry on the reference: one or two ALTs, any genotype but 0/0.
pub fn random_entry(random: &mut Random, reference: &[u8]) -> Entry {
    let start = random.below(reference.len());
    entry_from(random, reference, start)
}

/// The same with this start.
pub fn entry_from(random: &mut Random, reference: &[u8], start: usize) -> Entry {
    let length = random.between(1, (reference.len() - start).min(4));
    let replaced = reference[start..start + length].to_vec();
    let mut alts = vec![random_alt(random, reference, start, length)];
    if random.once_in(4) {
        let other = random_alt(random, reference, start, length);
        alts.extend((other != alts[0]).then_some(other));
    }
    let copies = match random.once_in(2) {
        true => [1, 1],
        false => random_copies(random, alts.len()),
    };
    Entry { pos: start + 1, reference: replaced, alts, copies }
}

/// Any pair of allele numbers but 0 and 0.
pub fn random_copies(random: &mut Random, alts: usize) -> [usize; 2] {
    loop {
        let copies = [random.between(0, alts), random.between(0, alts)];
        if copies != [0, 0] {
            return copies;
        }
    }
}

/// Bases that stand in the reference near the span, or any: not those of the span itself.
fn random_alt(random: &mut Random, reference: &[u8], start: usize, length: usize) -> Vec<u8> {
    let same_length = random.once_in(3);
    loop {
        let from = start.saturating_sub(random.below(3));
        let to = (from + random.between(1, 4)).min(reference.len());
        let (from, to) = if same_length { (start, start + length) } else { (from, to) };
        let mut alt = reference[from..to].to_vec();
        if same_length || random.once_in(3) {
            let place = random.below(alt.len());
            alt[place] = *random.pick(b"ACGTN");
        }
        if !same_length && random.once_in(3) {
            alt.insert(0, reference[start]);
        }
        if alt != reference[start..start + length] {
            return alt;
        }
    }
}

/// An insertion and the deletion behind it that takes the same bases away again.
fn undone(random: &mut Random, reference: &[u8]) -> Vec<Entry> {
    let start = random.below(reference.len() - 2);
    let length = random.between(1, (reference.len() - 2 - start).min(3));
    let (inserted, kept) = (start + 1, start + 1 + length);
    let entry = |pos, reference: &[u8], alt: &[u8]| {
        let (reference, alts) = (reference.to_vec(), vec![alt.to_vec()]);
        Entry { pos, reference, alts, copies: [0, 1] }
    };
    vec![
        entry(start + 1, &reference[start..=start], &reference[start..kept]),
        entry(start + 2, &reference[inserted..=kept], &reference[kept..=kept]),
    ]
}
