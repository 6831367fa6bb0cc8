//! What the calls of two lists are lent, and the calls of `plan` and `count`.

use super::any_room;
use super::spoil::{other_name, spoil_reference, spoiled_text};
use crate::card::ENTRIES_MOST;
use crate::drawn::list::Drawn;
use crate::drawn::masked::masked;
use crate::drawn::pairs::{apart, crowd, large, pair, sized_pair, strangers};
use crate::drawn::random::Random;
use crate::drive::case::{Call, Case};
use crate::Cluster;

/// A reference, a name and the texts of list 1 and list 2.
#[derive(Clone)]
pub struct TwoLists {
    pub reference: Vec<u8>,
    pub name: Vec<u8>,
    pub texts: [Vec<u8>; 2],
}

impl TwoLists {
    /// As drawn.
    pub fn of(lists: &[Drawn; 2]) -> TwoLists {
        let Drawn { reference, name, .. } = &lists[0];
        let texts = lists.each_ref().map(Drawn::text);
        TwoLists { reference: reference.clone(), name: name.clone(), texts }
    }

    /// With a list broken, or both, or the reference, or the name.
    pub fn spoiled(random: &mut Random, lists: &[Drawn; 2]) -> TwoLists {
        let mut two = TwoLists::of(lists);
        let which = random.below(2);
        match random.below(20) {
            0 => spoil_reference(random, &mut two.reference),
            1 => two.name = other_name(random),
            2 => two.texts = lists.clone().map(|list| spoiled_text(random, list)),
            _ => two.texts[which] = spoiled_text(random, lists[which].clone()),
        }
        two
    }
}

/// Two lists that are accepted, but for some of the sizes.
pub fn lists(random: &mut Random) -> [Drawn; 2] {
    // The large ones are few: each has as many bytes as some hundred of the others.
    let lists = match random.below(400) {
        0 | 1 => apart(random),
        2..=9 => sized_pair(random),
        10..=39 => crowd(random),
        40..=59 => pair(random, 40),
        60..=99 => strangers(random),
        100..=127 => large(random),
        _ => pair(random, 10),
    };
    masked(random, lists)
}

/// Half of them are as drawn, the others broken.
pub fn two_lists(random: &mut Random) -> TwoLists {
    let lists = lists(random);
    match random.once_in(2) {
        true => TwoLists::of(&lists),
        false => TwoLists::spoiled(random, &lists),
    }
}

pub fn plan(random: &mut Random) -> Case {
    let two = two_lists(random);
    let plan = any_plan(random);
    Case::new(&two.reference, &two.name, Call::Plan { texts: two.texts, plan })
}

pub fn count(random: &mut Random) -> Case {
    let two = two_lists(random);
    let marks = any_marks(random);
    Case::new(&two.reference, &two.name, Call::Count { texts: two.texts, marks })
}

/// Marks of the least size mostly: marks alone, or some other bytes are among them, or they are any bytes.
pub fn any_marks(random: &mut Random) -> Vec<u8> {
    let length = any_length(random);
    let mut marks = any_room(random, length);
    let any_in = *random.pick(&[usize::MAX, usize::MAX, 1, 8, 200]);
    for mark in &mut marks {
        if !random.once_in(any_in) {
            *mark = *random.pick(b"+-0?");
        }
    }
    marks
}

/// Room for a plan: of the least size mostly, with any records in it.
pub fn any_plan(random: &mut Random) -> Vec<Cluster> {
    let length = any_length(random);
    (0..length).map(|_| any_record(random)).collect()
}

pub fn any_record(random: &mut Random) -> Cluster {
    Cluster { first: any_number(random), count: any_number(random) }
}

/// A small number, or any.
pub fn any_number(random: &mut Random) -> u32 {
    match random.once_in(2) {
        true => random.below(20) as u32,
        false => random.below(1 << 32) as u32,
    }
}

/// The least size of a plan, of marks and of entries, mostly; else larger, or smaller by one or by more.
pub fn any_length(random: &mut Random) -> usize {
    match random.below(40) {
        0 => ENTRIES_MOST - 1,
        1 => random.below(ENTRIES_MOST),
        2..=5 => ENTRIES_MOST + random.between(1, 200),
        _ => ENTRIES_MOST,
    }
}
