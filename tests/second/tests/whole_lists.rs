//! Demand 3: the marks of the clusters, joined, are the best pair over the two whole lists.

mod common;

use common::calls::Case;
use common::lists::short;
use common::random::Random;
use common::seen::Seen;
use common::world::World;
use second::best::best;
use second::choice::Choice;
use second::donor::overlap;
use second::merged::{merged, Item};

const CASES: u64 = 12_000;

#[test]
fn clusters_joined_give_the_best_pair_of_the_whole_lists() {
    let mut seen = Seen::default();
    for seed in 0..CASES {
        let mut random = Random::new(seed);
        let world = World::new(&mut random, 8);
        let case = Case::of(&world);
        let whole = best(&world.reference, world.lists());
        let marks: String = whole.choices.iter().map(|choice| char::from(choice.mark())).collect();
        assert_eq!(case.marks(), Ok((marks, whole.score)), "{}", case.printed());
        note(&mut seen, &world, &whole.choices, &case.plan_pairs());
    }
    seen.assert_each(100);
}

fn note(seen: &mut Seen, world: &World, choices: &[Choice], plan: &[(u32, u32)]) {
    let [first, second] = [0, 1].map(|list| chosen_of(list, world, choices));
    let chosen = first.len() + second.len();
    let in_both = !first.is_empty() && !second.is_empty();
    let is_matched = |&&(first, count): &&(u32, u32)| {
        let cluster = &choices[first as usize..(first + count) as usize];
        cluster.iter().any(|choice| choice.is_chosen())
    };
    let entries = || world.lists.iter().flatten();
    seen.note("several clusters", plan.len() > 1);
    seen.note("matches in several clusters", plan.iter().filter(is_matched).count() > 1);
    seen.note("a match with other fields", in_both && first != second);
    seen.note("a match with other counts", in_both && first.len() != second.len());
    seen.note("a match in list 1 alone", chosen > 0 && second.is_empty());
    seen.note("a match in list 2 alone", chosen > 0 && first.is_empty());
    seen.note("copies exchanged", choices.contains(&Choice::Minus));
    seen.note("overlapping entries of a list on opposite copies", has_opposite(world, choices));
    seen.note("entries left out beside a match", chosen > 0 && chosen < choices.len());
    seen.note("no match", chosen == 0 && entries().count() > 1);
    seen.note("two ALTs", entries().any(|entry| entry.alts.len() == 2));
    seen.note("an N", world.reference.contains(&b'N'));
}

/// Whether two chosen entries of one list overlap.
fn has_opposite(world: &World, choices: &[Choice]) -> bool {
    let items = merged(world.lists()).into_iter().zip(choices);
    let chosen: Vec<Item> =
        items.filter(|(_, choice)| choice.is_chosen()).map(|(item, _)| item).collect();
    let are_so = |one: &Item, other: &Item| {
        one.list == other.list && overlap(one.of(world.lists()), other.of(world.lists()))
    };
    (0..chosen.len()).any(|last| chosen[..last].iter().any(|one| are_so(one, &chosen[last])))
}

/// POS, REF and ALT of a list's chosen entries.
fn chosen_of(list: usize, world: &World, choices: &[Choice]) -> Vec<String> {
    let items = merged(world.lists()).into_iter().zip(choices);
    let chosen = items.filter(|(item, choice)| item.list == list && choice.is_chosen());
    let fields = chosen.map(|(item, _)| {
        let short = short(item.of(world.lists()));
        short.rsplit_once(' ').expect("POS REF ALT GT").0.to_string()
    });
    fields.collect()
}
