//! The best pair by a search that turns back early: at an overlap on a copy, at donors that no longer agree,
//! and where too few entries are left to beat the score found.
//!
//! The merged order rises in POS, so what both lists spell up to the next start is final. The search
//! builds the donors as it goes, only from the first start to the largest end; outside of that both
//! lists spell the reference.

use crate::best::Best;
use crate::choice::{score, Choice};
use crate::donor::carried;
use crate::entry::Entry;
use crate::merged::{merged, Item, Lists};

/// The same pair as `best::best` gives, found quickly.
pub fn best_pruned(reference: &[u8], lists: Lists) -> Best {
    let items = merged(lists);
    let start = items.first().map_or(0, |item| item.of(lists).start());
    let end = items.iter().map(|item| item.of(lists).end()).max().unwrap_or(0);
    let mut search = Search {
        stretch: &reference[..end],
        lists,
        items: &items,
        choices: Vec::with_capacity(items.len()),
        best: Best { score: 0, choices: vec![Choice::Zero; items.len()] },
    };
    let nothing = || Spelled { place: start, bases: Vec::new() };
    let both_copies = || [nothing(), nothing()];
    search.go(&mut [both_copies(), both_copies()], [0, 0]);
    search.best
}

/// What one list's choices so far spell on one copy, up to `place` of the reference.
struct Spelled {
    place: usize,
    bases: Vec<u8>,
}

/// By list, and of each list by copy.
type AllSpelled = [[Spelled; 2]; 2];

impl Spelled {
    /// Spells the reference up to `place`, unless a span that is replaced already runs past it.
    fn run_to(&mut self, reference: &[u8], place: usize) {
        if self.place < place {
            self.bases.extend(&reference[self.place..place]);
            self.place = place;
        }
    }

    /// Spells this allele for the span of the entry.
    fn put(&mut self, entry: &Entry, allele: &[u8]) {
        self.bases.extend(allele);
        self.place = entry.end();
    }

    /// What `back_to` needs to take back all that is spelled later.
    fn now(&self) -> (usize, usize) {
        (self.place, self.bases.len())
    }

    fn back_to(&mut self, (place, length): (usize, usize)) {
        self.place = place;
        self.bases.truncate(length);
    }
}

struct Search<'a> {
    /// The reference up to the largest end.
    stretch: &'a [u8],
    lists: Lists<'a>,
    items: &'a [Item],
    choices: Vec<Choice>,
    /// The best of the pairs already gone through, which come before in dictionary order.
    best: Best,
}

impl Search<'_> {
    /// Tries each choice by rank for the next entry. `agreed` bytes of each copy are known to be
    /// equal. Leaves `spelled` and the choices as they were.
    fn go(&mut self, spelled: &mut AllSpelled, agreed: [usize; 2]) {
        let (score, left) = (score(&self.choices), self.items.len() - self.choices.len());
        if score + left as u32 <= self.best.score {
            return;
        }
        let before = spelled.each_ref().map(now);
        let next = self.items.get(self.choices.len()).copied();
        let place = next.map_or(self.stretch.len(), |item| item.of(self.lists).start());
        for one in spelled.iter_mut().flatten() {
            one.run_to(self.stretch, place);
        }
        if let Some(agreed) = agree(spelled, agreed) {
            match next {
                Some(item) => self.choose(item, spelled, agreed),
                None => self.keep(spelled, score),
            }
        }
        for (copies, before) in spelled.iter_mut().zip(before) {
            back_to(copies, before);
        }
    }

    /// What `item` carries on a copy goes behind what its list spells there, if no span that is replaced there covers its start.
    fn choose(&mut self, item: Item, spelled: &mut AllSpelled, agreed: [usize; 2]) {
        let entry = item.of(self.lists);
        let alleles = entry.copy_alleles();
        let before = now(&spelled[item.list]);
        for choice in Choice::BY_RANK {
            // Where both copy alleles are the same, `-` spells what `+` does and ranks behind it.
            let repeats = choice == Choice::Minus && alleles[0] == alleles[1];
            let carried = [0, 1].map(|copy| carried(entry, choice, copy));
            let overlaps = |copy: usize| carried[copy].is_some() && before[copy].0 > entry.start();
            if repeats || overlaps(0) || overlaps(1) {
                continue;
            }
            for (one, allele) in spelled[item.list].iter_mut().zip(carried) {
                if let Some(allele) = allele {
                    one.put(entry, allele);
                }
            }
            self.choices.push(choice);
            self.go(spelled, agreed);
            self.choices.pop();
            back_to(&mut spelled[item.list], before);
        }
    }

    /// All entries have a choice: a legal pair if the donors are equally long, as they agree.
    fn keep(&mut self, spelled: &AllSpelled, score: u32) {
        let lengths = |list: usize| spelled[list].each_ref().map(|one| one.bases.len());
        if lengths(0) == lengths(1) {
            let choices = self.choices.clone();
            self.best = Best { score, choices };
        }
    }
}

/// `Spelled::now` of each copy of a list.
fn now(copies: &[Spelled; 2]) -> [(usize, usize); 2] {
    copies.each_ref().map(Spelled::now)
}

/// `Spelled::back_to` of each copy of a list.
fn back_to(copies: &mut [Spelled; 2], before: [(usize, usize); 2]) {
    for (one, before) in copies.iter_mut().zip(before) {
        one.back_to(before);
    }
}

/// Compares what both lists spell behind the `agreed` bytes of each copy, as far as both reach.
fn agree(spelled: &AllSpelled, agreed: [usize; 2]) -> Option<[usize; 2]> {
    let mut reached = agreed;
    for copy in [0, 1] {
        let [first, second] = [0, 1].map(|list| &spelled[list][copy].bases);
        reached[copy] = first.len().min(second.len());
        let new = agreed[copy]..reached[copy];
        if first[new.clone()] != second[new] {
            return None;
        }
    }
    Some(reached)
}
