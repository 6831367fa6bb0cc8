//! The best pair by its definition: every pair of choices is tried over the whole reference.

use crate::choice::{score, Choice};
use crate::donor::{donor, is_separate};
use crate::merged::{merged, Item, Lists};

/// The best pair of choices, in merged order, and its score.
#[derive(Clone, Debug, PartialEq, Eq)]
pub struct Best {
    pub score: u32,
    pub choices: Vec<Choice>,
}

/// Goes through the pairs in dictionary order, so among equal scores the first found stays.
/// Leaving all entries out is always legal, and is the last pair.
pub fn best(reference: &[u8], lists: Lists) -> Best {
    let items = merged(lists);
    let mut choices = vec![Choice::Plus; items.len()];
    let mut best = None;
    loop {
        let score = score(&choices);
        let higher = best.as_ref().is_none_or(|best: &Best| score > best.score);
        if higher && is_legal(reference, lists, &items, &choices) {
            let choices = choices.clone();
            best = Some(Best { score, choices });
        }
        if !step(&mut choices) {
            return best.expect("leaving all out is legal");
        }
    }
}

/// The next choices in dictionary order; false after the last, which are all `0`.
fn step(choices: &mut [Choice]) -> bool {
    for choice in choices.iter_mut().rev() {
        match choice {
            Choice::Plus => *choice = Choice::Minus,
            Choice::Minus => *choice = Choice::Zero,
            Choice::Zero => {
                *choice = Choice::Plus;
                continue;
            }
        }
        return true;
    }
    false
}

/// Within a list nothing overlaps on a copy, and the lists' donors are equal on copy 0 and on copy 1.
pub fn is_legal(reference: &[u8], lists: Lists, items: &[Item], choices: &[Choice]) -> bool {
    let [first, second] = [0, 1].map(|list| choices_of(list, items, choices));
    let donors_equal = |copy| {
        donor(reference, lists[0], &first, copy) == donor(reference, lists[1], &second, copy)
    };
    is_separate(lists[0], &first)
        && is_separate(lists[1], &second)
        && donors_equal(0)
        && donors_equal(1)
}

/// One list's choices, in its own order.
fn choices_of(list: usize, items: &[Item], choices: &[Choice]) -> Vec<Choice> {
    let pairs = items.iter().zip(choices);
    pairs.filter(|(item, _)| item.list == list).map(|(_, &choice)| choice).collect()
}
