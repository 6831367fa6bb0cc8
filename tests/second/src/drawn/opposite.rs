//! Two lists with many entries that overlap: het entries, others under them on the other copy or on the same one, and het duplicates.
//! The second list mostly gives the same donors in another way, so that entries on opposite copies match.

use super::list::ALLELE_MOST;
use super::random::Random;
use super::rewritten::rewritten;
use super::world::entry_from;
use crate::choice::Choice;
use crate::donor::{donor, is_separate};
use crate::Entry;

/// The longest span of an entry that has others under it.
const OVER_MOST: usize = 5;

/// Each by POS, the first of at most half as many entries as `most`; one of these may stand twice, and mostly once in the second.
pub fn opposite_lists(random: &mut Random, reference: &[u8], most: usize) -> [Vec<Entry>; 2] {
    let half = most.div_ceil(2);
    let count = random.between(half.min(2), half);
    let is_twice = count > 2 && random.once_in(2);
    let mut first = Vec::new();
    while first.len() < count {
        first.extend(heap(random, reference));
    }
    first.truncate(count - usize::from(is_twice));
    first.sort_by_key(|entry| entry.pos);
    let mut second = match random.below(8) {
        0 => rewritten(random, reference, &first),
        1 => first.clone(),
        _ => spelled(random, reference, &first),
    };
    if random.once_in(2) {
        second.iter_mut().for_each(|entry| entry.copies.reverse());
    }
    if is_twice {
        let place = random.below(first.len());
        first.insert(place, first[place].clone());
    }
    second.sort_by_key(|entry| entry.pos);
    [first, second]
}

/// A het entry, and behind it some that start under it, of which one in four takes room on its copy.
fn heap(random: &mut Random, reference: &[u8]) -> Vec<Entry> {
    let (over, copy) = (over(random, reference), random.below(2));
    let mut heap = vec![het(&over, 1, copy)];
    for _ in 0..random.between(1, 3) {
        let start = random.between(over.start(), over.end() - 1);
        let under = match random.once_in(3) {
            true => over.clone(),
            false => entry_from(random, reference, start),
        };
        let number = random.between(1, under.alts.len());
        heap.push(match random.below(8) {
            0 => Entry { copies: [number, under.alts.len()], ..under },
            1 => het(&under, number, copy),
            _ => het(&under, number, 1 - copy),
        });
    }
    heap
}

/// An entry of one ALT: its first base alone, mostly, so that it is a deletion.
fn over(random: &mut Random, reference: &[u8]) -> Entry {
    let start = random.below(reference.len());
    let length = random.between(1, OVER_MOST.min(reference.len() - start));
    if length == 1 || random.once_in(4) {
        let mut entry = entry_from(random, reference, start);
        entry.alts.truncate(1);
        return entry;
    }
    let replaced = reference[start..start + length].to_vec();
    Entry {
        pos: start + 1,
        alts: vec![replaced[..1].to_vec()],
        reference: replaced,
        copies: [0, 1],
    }
}

/// The entry with this allele on the copy, and REF on the other.
fn het(entry: &Entry, number: usize, copy: usize) -> Entry {
    let mut copies = [0, 0];
    copies[copy] = number;
    Entry { copies, ..entry.clone() }
}

/// Other entries with the donors of as many of these as fit beside one another: those that overlap are joined to one, mostly.
fn spelled(random: &mut Random, reference: &[u8], entries: &[Entry]) -> Vec<Entry> {
    let mut written = Vec::new();
    let chosen = fitting(entries);
    let mut rest = &chosen[..];
    while let [first, behind @ ..] = rest {
        let mut end = first.0.end();
        let mut reaches = |(entry, _): &&(Entry, Choice)| {
            let is_near = entry.start() < end;
            end = end.max(entry.end());
            is_near
        };
        let count = 1 + behind.iter().take_while(&mut reaches).count();
        let (group, others) = rest.split_at(count);
        let one = if random.once_in(6) { None } else { joined(random, reference, group) };
        match one {
            Some(one) => written.push(one),
            None => written.extend(group.iter().map(|(entry, _)| entry.clone())),
        }
        rest = others;
    }
    written
}

/// Of entries by POS each that has room beside those before, as written or else exchanged.
fn fitting(entries: &[Entry]) -> Vec<(Entry, Choice)> {
    let (mut fitting, mut choices): (Vec<Entry>, Vec<Choice>) = (Vec::new(), Vec::new());
    for entry in entries {
        fitting.push(entry.clone());
        let fits = |choice: &&Choice| is_separate(&fitting, &[&choices[..], &[**choice]].concat());
        match [Choice::Plus, Choice::Minus].iter().find(fits) {
            Some(choice) => choices.push(*choice),
            None => drop(fitting.pop()),
        }
    }
    fitting.into_iter().zip(choices).collect()
}

/// One entry with the donors of these, where that has not too long alleles and changes something; its ALTs are in either order.
fn joined(random: &mut Random, reference: &[u8], group: &[(Entry, Choice)]) -> Option<Entry> {
    let (entries, choices): (Vec<Entry>, Vec<Choice>) = group.iter().cloned().unzip();
    let start = entries.iter().map(Entry::start).min()?;
    let end = entries.iter().map(Entry::end).max()?;
    let replaced = reference[start..end].to_vec();
    let alleles = [0, 1].map(|copy| {
        let donor = donor(reference, &entries, &choices, copy);
        donor[start..donor.len() - (reference.len() - end)].to_vec()
    });
    let mut alts: Vec<Vec<u8>> = alleles.to_vec();
    alts.dedup();
    alts.retain(|alt| *alt != replaced);
    if random.once_in(2) {
        alts.reverse();
    }
    let number = |allele| alts.iter().position(|alt| *alt == allele).map_or(0, |place| place + 1);
    let copies = alleles.map(number);
    let is_short = |allele: &Vec<u8>| allele.len() <= ALLELE_MOST;
    let fits = !alts.is_empty() && is_short(&replaced) && alts.iter().all(is_short);
    fits.then_some(Entry { pos: start + 1, reference: replaced, alts, copies })
}
