//! What the room that entries of one list take does in the marks of a call, beside the kind of its answer: a run is to come upon each
//! of these too.

use crate::bases::folded;
use crate::best::is_legal;
use crate::card::ENTRIES_MOST;
use crate::choice::Choice;
use crate::clusters::lists_of;
use crate::donor::{is_separate, overlap};
use crate::merged::{merged, Item, Lists};
use crate::Cluster;

/// Two overlapping entries of a list are chosen, and so on opposite copies.
pub const OPPOSITE: &str = "overlapping entries chosen on opposite copies";

/// A het entry is left out for a chosen one that overlaps it: in its place it would match too, but on the same copy.
pub const SAME_COPY: &str = "an entry left out for one on the same copy";

/// What a call that marks is to come upon.
pub const OF_MARKS: [&str; 2] = [OPPOSITE, SAME_COPY];

/// What the marks of these clusters came upon, of two accepted lists.
pub fn found(
    reference: &[u8],
    name: &[u8],
    texts: [&[u8]; 2],
    plan: &[Cluster],
    marks: &[u8],
) -> Vec<&'static str> {
    let read = |text| crate::read(reference, name, 1, text).expect("accepted");
    let (bases, entries) = (folded(reference), texts.map(|text| read(text).entries()));
    let lists = entries.each_ref().map(Vec::as_slice);
    let items = merged(lists);
    let clusters: Vec<Marked> =
        plan.iter().filter_map(|cluster| Marked::of(lists, &items, *cluster, marks)).collect();
    let mut found = Vec::new();
    let mut note = |what, is_so| found.extend(Some(what).filter(|_| is_so));
    note(OPPOSITE, clusters.iter().any(Marked::has_opposite));
    note(SAME_COPY, clusters.iter().any(|cluster| cluster.has_same_copy(&bases)));
    found
}

/// The same of all marks of two lists; nothing where they are refused.
pub fn found_in_all(reference: &[u8], name: &[u8], texts: [&[u8]; 2]) -> Vec<&'static str> {
    let (plan, marks) = (&mut [Cluster::default(); ENTRIES_MOST], &mut [0; ENTRIES_MOST]);
    match crate::mark_all(reference, name, texts[0], texts[1], plan, marks) {
        Ok((clusters, _)) => found(reference, name, texts, &plan[..clusters as usize], marks),
        Err(_) => Vec::new(),
    }
}

/// A decided cluster in which entries of one list overlap.
struct Marked<'a> {
    lists: Lists<'a>,
    items: Vec<Item>,
    choices: Vec<Choice>,
    /// The numbers, in merged order, of two that do.
    overlapping: Vec<[usize; 2]>,
}

impl Marked<'_> {
    fn of<'a>(
        lists: Lists<'a>,
        items: &[Item],
        cluster: Cluster,
        marks: &[u8],
    ) -> Option<Marked<'a>> {
        let marks = &marks[cluster.first as usize..][..cluster.count as usize];
        let choice = |mark: &u8| Choice::BY_RANK.into_iter().find(|choice| choice.mark() == *mark);
        let choices: Vec<Choice> = marks.iter().map(choice).collect::<Option<_>>()?;
        let lists = lists_of(lists, items, cluster);
        let items = merged(lists);
        let overlaps = |one: &Item, other: &Item| {
            one.list == other.list && overlap(one.of(lists), other.of(lists))
        };
        let with = |one: usize| (0..one).map(move |other| [other, one]);
        let pairs = (0..items.len()).flat_map(with);
        let overlapping: Vec<[usize; 2]> =
            pairs.filter(|[one, other]| overlaps(&items[*one], &items[*other])).collect();
        (!overlapping.is_empty()).then_some(Marked { lists, items, choices, overlapping })
    }

    fn has_opposite(&self) -> bool {
        self.overlapping.iter().any(|pair| pair.iter().all(|one| self.choices[*one].is_chosen()))
    }

    fn has_same_copy(&self, bases: &[u8]) -> bool {
        let mut pairs =
            self.overlapping.iter().flat_map(|[one, other]| [[*one, *other], [*other, *one]]);
        pairs.any(|[chosen, left_out]| {
            let is_so = self.choices[chosen].is_chosen() && !self.choices[left_out].is_chosen();
            let entries = [chosen, left_out].map(|number| self.items[number].of(self.lists));
            let are_het = entries.iter().all(|entry| entry.copies.contains(&0));
            is_so && are_het && self.is_exchangeable(bases, chosen, left_out)
        })
    }

    /// Whether the one left out, with some choice, would match in the place of the chosen one, and has no room beside it.
    fn is_exchangeable(&self, bases: &[u8], chosen: usize, left_out: usize) -> bool {
        let entries = [chosen, left_out].map(|number| self.items[number].of(self.lists).clone());
        [Choice::Plus, Choice::Minus].into_iter().any(|choice| {
            let mut choices = self.choices.clone();
            choices[left_out] = choice;
            choices[chosen] = Choice::Zero;
            !is_separate(&entries, &[self.choices[chosen], choice])
                && is_legal(bases, self.lists, &self.items, &choices)
        })
    }
}
