//! Large clusters: 12 or 13 entries whose alleles have 64 bases, or that lie on thousands of bases, or both.
//!
//! Mostly they lie on a repeat. Each takes units of it away or adds some, so that it gives the same donor
//! wherever it stands there, and no gap is cut, however long. There is little to search in a cluster of 12:
//! its entries stand in heaps, of which one can be chosen, or two on opposite copies, or all of them match as written.

use super::list::ALLELE_MOST;
use super::random::Random;
use super::world::{random_copies, World};
use crate::Entry;

/// How many bases the repeat has, of a cluster that is wide, or is not.
const WIDE: [usize; 2] = [2_500, 4_000];
const NARROW: [usize; 2] = [850, 1_200];

/// How many bases an entry takes away or adds, where its alleles are not long.
const FEW: [usize; 4] = [2, 3, 6, 12];

const COPIES: [[usize; 2]; 3] = [[1, 1], [0, 1], [1, 0]];

/// What an entry does.
#[derive(Clone, Copy, PartialEq, Eq)]
enum Way {
    Takes,
    Adds,
}

const WAYS: [Way; 2] = [Way::Takes, Way::Adds];

/// A reference on which no two entries that start in different places overlap.
struct Places {
    reference: Vec<u8>,
    places: Vec<usize>,
    /// How many bases each entry takes away or adds.
    moved: usize,
}

pub fn large_world(random: &mut Random) -> World {
    let (is_long, is_wide) = *random.pick(&[(true, false), (false, true), (true, true)]);
    let count = *random.pick(&[12, 12, 13]);
    let moved = if is_long { ALLELE_MOST - 1 } else { *random.pick(&FEW) };
    let (places, mut lists) = if is_long && is_wide && random.once_in(8) {
        let places = Places::in_steps(random, moved, count);
        let lists = places.opposed(random);
        (places, lists)
    } else {
        let places = Places::on_repeat(random, if is_wide { WIDE } else { NARROW }, moved, count);
        let lists = match random.below(4) {
            0 => places.matched(random),
            1 => places.matched_heaps(random),
            _ => places.other_heaps(random),
        };
        (places, lists)
    };
    for list in &mut lists {
        list.sort_by_key(|entry| entry.pos);
    }
    if random.once_in(2) {
        lists.reverse();
    }
    World { reference: places.reference, lists }
}

impl Places {
    /// A repeat between other bases, with places in all parts of it. Its unit divides what is moved.
    fn on_repeat(random: &mut Random, bases: [usize; 2], moved: usize, count: usize) -> Places {
        let units: Vec<usize> = (1..=moved).filter(|unit| moved % unit == 0).collect();
        let length = *random.pick(&units);
        let unit = acgt(random, length);
        let length = random.between(bases[0], bases[1]);
        let repeat = unit.into_iter().cycle().take(length).collect();
        let [before, behind] = [(); 2].map(|()| {
            let length = random.below(ALLELE_MOST);
            acgt(random, length)
        });
        let part = length / count;
        let place = |number| before.len() + number * part + random.below(part - moved);
        let places = (0..count).map(place).collect();
        Places { reference: [before, repeat, behind].concat(), places, moved }
    }

    /// Any bases. Each gap is as long as it may be without a cut, where list 1 takes away and list 2 adds.
    fn in_steps(random: &mut Random, moved: usize, count: usize) -> Places {
        let mut places = vec![random.below(ALLELE_MOST)];
        for number in 1..count {
            places.push(places[number - 1] + 1 + number * moved);
        }
        let length = places[count - 1] + 1 + moved + random.below(ALLELE_MOST);
        Places { reference: acgt(random, length), places, moved }
    }

    fn entry(&self, place: usize, way: Way, copies: [usize; 2]) -> Entry {
        let bases = |length: usize| self.reference[place..place + length].to_vec();
        let (one, all) = (bases(1), bases(1 + self.moved));
        let (reference, alt) = if way == Way::Takes { (all, one) } else { (one, all) };
        Entry { pos: place + 1, reference, alts: vec![alt], copies }
    }

    /// An entry in each place. Each has its like in the other list, but for the last of 13.
    fn matched(&self, random: &mut Random) -> [Vec<Entry>; 2] {
        let half = self.places.len().div_ceil(2);
        let likes: Vec<(Way, [usize; 2])> =
            (0..half).map(|_| (*random.pick(&WAYS), *random.pick(&COPIES))).collect();
        let mut lists = [Vec::new(), Vec::new()];
        for place in &self.places {
            let list = random.below(2);
            let list = if lists[list].len() == half { 1 - list } else { list };
            let (way, copies) = likes[lists[list].len()];
            lists[list].push(self.entry(*place, way, copies));
        }
        lists
    }

    /// The same, but the one list takes away and the other adds: nothing matches.
    fn opposed(&self, random: &mut Random) -> [Vec<Entry>; 2] {
        let mut lists = [Vec::new(), Vec::new()];
        for place in &self.places {
            let list = random.below(2);
            lists[list].push(self.entry(*place, WAYS[list], *random.pick(&COPIES)));
        }
        lists
    }

    /// Any entries in heaps, of which one in either list is the other's like.
    fn matched_heaps(&self, random: &mut Random) -> [Vec<Entry>; 2] {
        let mut lists = self.heaps(random, [&WAYS, &WAYS]);
        let (way, copies) = (*random.pick(&WAYS), *random.pick(&COPIES));
        for list in &mut lists {
            let number = random.below(list.len());
            list[number] = self.entry(list[number].start(), way, copies);
        }
        lists
    }

    /// Heaps where the one list takes away and the other adds, or where the other alone has N in what is chosen.
    fn other_heaps(&self, random: &mut Random) -> [Vec<Entry>; 2] {
        let way = random.below(2);
        let is_opposed = random.once_in(2);
        let other: &[Way] = if is_opposed { &[WAYS[1 - way]] } else { &WAYS };
        let mut lists = self.heaps(random, [&[WAYS[way]], other]);
        if !is_opposed {
            for entry in &mut lists[1] {
                *entry.alts[0].last_mut().expect("a base") = b'N';
            }
        }
        lists
    }

    /// Heaps of entries that do these: list 1's are in one place or two, list 2's in one, at the other end.
    fn heaps(&self, random: &mut Random, ways: [&[Way]; 2]) -> [Vec<Entry>; 2] {
        let last = self.places.len() - 1;
        let mut ends = [self.places[0], self.places[last]];
        if random.once_in(2) {
            ends.reverse();
        }
        let (between, away) = (self.places[random.between(1, last - 1)], random.below(4));
        let mut lists = [Vec::new(), Vec::new()];
        for number in 0..=last {
            let list = number % 2;
            let place = if list == 0 && lists[0].len() < away { between } else { ends[list] };
            let mut entry = self.entry(place, *random.pick(ways[list]), [1, 1]);
            if random.once_in(4) {
                entry.alts.push(self.with_n(place));
            }
            entry.copies = random_copies(random, entry.alts.len());
            lists[list].push(entry);
        }
        lists
    }

    /// The longer allele of an entry in this place, with N for its first base.
    fn with_n(&self, place: usize) -> Vec<u8> {
        [b"N", &self.reference[place + 1..=place + self.moved]].concat()
    }
}

fn acgt(random: &mut Random, length: usize) -> Vec<u8> {
    (0..length).map(|_| *random.pick(b"ACGT")).collect()
}
