//! The calls of a whole pair of lists: `mark_all` and `entries`.

use super::any_room;
use super::cost::{strings, COSTLY, STRINGS_MOST};
use super::two_lists::{any_length, any_number, any_plan, two_lists, TwoLists};
use crate::drawn::masked::masked;
use crate::drawn::pairs::worlds_and_crowd;
use crate::drawn::random::Random;
use crate::drive::case::{Call, Case};
use crate::Listed;

/// As for `plan`, but for a few that have undecided clusters beside others.
fn any_lists(random: &mut Random) -> TwoLists {
    match random.once_in(20) {
        true => {
            let lists = worlds_and_crowd(random);
            TwoLists::of(&masked(random, lists))
        }
        false => two_lists(random),
    }
}

/// Lists with much to search are drawn again, mostly.
pub fn mark_all(random: &mut Random) -> Case {
    let two = loop {
        let two = any_lists(random);
        if strings(&two).iter().sum::<usize>() <= STRINGS_MOST || random.once_in(COSTLY) {
            break two;
        }
    };
    let (plan, length) = (any_plan(random), any_length(random));
    let marks = any_room(random, length);
    Case::new(&two.reference, &two.name, Call::MarkAll { texts: two.texts, plan, marks })
}

pub fn entries(random: &mut Random) -> Case {
    let two = any_lists(random);
    let entries = any_entries(random);
    Case::new(&two.reference, &two.name, Call::Entries { texts: two.texts, entries })
}

/// Room for entries: of the least size mostly, with any records in it.
pub fn any_entries(random: &mut Random) -> Vec<Listed> {
    let record = |random: &mut Random| {
        let [list, entry, line, cluster] = [(); 4].map(|()| any_number(random));
        Listed { list, entry, line, cluster }
    };
    (0..any_length(random)).map(|_| record(random)).collect()
}
