//! Two lists on one reference, each in all its variety.

use super::large::large_world;
use super::list::{any_bases, any_name, Drawn};
use super::lists::NAME;
use super::random::Random;
use super::sizes::{sized_list, sized_reference};
use super::world::{random_entry, random_reference, World};
use crate::list::RECORDS_MOST;
use crate::Entry;

/// The lists of a world with at most `most` entries: the one is mostly the other, written in another way.
pub fn pair(random: &mut Random, most: usize) -> [Drawn; 2] {
    let World { reference, lists } = World::new(random, most);
    pair_of(random, reference, lists)
}

/// The lists of several worlds, one behind the other: mostly each gives a cluster or more.
pub fn worlds(random: &mut Random) -> [Drawn; 2] {
    let worlds = (0..random.between(2, 40)).map(|_| World::new(random, 6)).collect();
    joined(random, worlds)
}

/// The same with a crowd or a large cluster among a few worlds: mostly a cluster that is undecided, or just not,
/// beside others.
pub fn worlds_and_crowd(random: &mut Random) -> [Drawn; 2] {
    let mut worlds: Vec<World> = (0..random.between(1, 6)).map(|_| World::new(random, 6)).collect();
    let crowd = if random.once_in(8) { large_world(random) } else { crowd_world(random) };
    worlds.insert(random.between(0, worlds.len()), crowd);
    joined(random, worlds)
}

fn joined(random: &mut Random, worlds: Vec<World>) -> [Drawn; 2] {
    let (mut reference, mut lists) = (Vec::new(), [Vec::new(), Vec::new()]);
    for world in worlds {
        for (list, entries) in lists.iter_mut().zip(world.lists) {
            let moved = |entry: Entry| Entry { pos: entry.pos + reference.len(), ..entry };
            list.extend(entries.into_iter().map(moved));
        }
        reference.extend(world.reference);
    }
    pair_of(random, reference, lists)
}

/// Two lists of any entries, which have nothing to do with one another.
pub fn strangers(random: &mut Random) -> [Drawn; 2] {
    let first = Drawn::new(random, 6);
    let count = random.below(6);
    let second = first.beside(random, count);
    [first, second]
}

/// A few entries, each many times, 11 to 14 in all: mostly they are one cluster.
pub fn crowd(random: &mut Random) -> [Drawn; 2] {
    let World { reference, lists } = crowd_world(random);
    pair_of(random, reference, lists)
}

fn crowd_world(random: &mut Random) -> World {
    let reference = random_reference(random);
    let kinds: Vec<Entry> =
        (0..random.between(1, 3)).map(|_| random_entry(random, &reference)).collect();
    let mut lists = [Vec::new(), Vec::new()];
    for _ in 0..random.between(11, 14) {
        lists[random.below(2)].push(random.pick(&kinds).clone());
    }
    for list in &mut lists {
        list.sort_by_key(|entry| entry.pos);
    }
    World { reference, lists }
}

/// A cluster of 12 or 13 entries that have long alleles, or lie far from one another, or both.
pub fn large(random: &mut Random) -> [Drawn; 2] {
    let World { reference, lists } = large_world(random);
    pair_of(random, reference, lists)
}

/// As many entries as two lists can have, or a few fewer, each of them a cluster of its own.
pub fn apart(random: &mut Random) -> [Drawn; 2] {
    let most = 2 * RECORDS_MOST;
    let reference = any_bases(random, most, most + 500);
    let mut lists = [Vec::new(), Vec::new()];
    for place in 0..most - random.pick(&[0, 0, 0, 1, 2]) {
        let replaced = reference[place];
        let alt = if replaced == b'A' { b'C' } else { b'A' };
        let (pos, reference, alts) = (place + 1, vec![replaced], vec![vec![alt]]);
        let list = if lists[0].len() == RECORDS_MOST { 1 } else { random.below(2) };
        let list = if lists[1].len() == RECORDS_MOST { 0 } else { list };
        lists[list].push(Entry { pos, reference, alts, copies: [1, 1] });
    }
    let lists = lists.map(|entries| Drawn::of(random, reference.clone(), NAME.to_vec(), &entries));
    lists
}

/// A list or a reference of a size where the rules change, and a small list beside it.
pub fn sized_pair(random: &mut Random) -> [Drawn; 2] {
    let one = if random.once_in(3) { sized_reference(random) } else { sized_list(random) };
    let count = if one.reference.is_empty() { 0 } else { random.below(4) };
    let other = one.beside(random, count);
    if random.once_in(2) {
        [one, other]
    } else {
        [other, one]
    }
}

fn pair_of(random: &mut Random, reference: Vec<u8>, lists: [Vec<Entry>; 2]) -> [Drawn; 2] {
    let name = any_name(random);
    lists.map(|entries| Drawn::of(random, reference.clone(), name.clone(), &entries))
}
