//! The calls of one list.

use super::spoil::{other_name, spoil_reference, spoiled_text};
use super::{any_room, beyond};
use crate::drawn::list::Drawn;
use crate::drawn::masked::masked;
use crate::drawn::random::Random;
use crate::drawn::sizes::{sized_list, sized_reference};
use crate::drive::case::{Call, Case};

struct OneList {
    reference: Vec<u8>,
    name: Vec<u8>,
    text: Vec<u8>,
    /// How many records there were before any was broken.
    records: usize,
}

/// Nearly half of the lists are as drawn, the others broken.
fn one_list(random: &mut Random) -> OneList {
    // The large ones are few: each has as many bytes as some hundred of the others.
    let list = match random.below(400) {
        0 => sized_reference(random),
        1 | 2 => sized_list(random),
        3..=10 => Drawn::new(random, 40),
        _ => Drawn::new(random, 6),
    };
    let [list] = masked(random, [list]);
    let records = list.records.len();
    let (mut reference, mut name) = (list.reference.clone(), list.name.clone());
    let text = match random.below(10) {
        0..=3 => list.text(),
        _ => spoiled_text(random, list),
    };
    if random.once_in(40) {
        spoil_reference(random, &mut reference);
    }
    if random.once_in(60) {
        name = other_name(random);
    }
    OneList { reference, name, text, records }
}

/// An entry of the list and an allele of it, mostly.
pub fn allele(random: &mut Random) -> Case {
    let OneList { reference, name, text, records } = one_list(random);
    let (entry, allele) = any_allele(random, records);
    Case::new(&reference, &name, Call::Allele { text, entry, allele })
}

/// The numbers of an entry and of an allele, mostly such as there are in a list of so many records.
pub fn any_allele(random: &mut Random, records: usize) -> (usize, usize) {
    let entry = random.below(records.max(1));
    let allele = *random.pick(&[0, 1, 1, 2]);
    match random.below(8) {
        0 => (beyond(random, entry, records), allele),
        1 => (entry, beyond(random, allele, 3)),
        _ => (entry, allele),
    }
}

pub fn normal(random: &mut Random) -> Case {
    let OneList { reference, name, text, .. } = one_list(random);
    let out = room_for(random, &text);
    Case::new(&reference, &name, Call::Normal { text, out })
}

/// Room as long as the text, mostly: else longer, or shorter by one byte or by more.
pub fn room_for(random: &mut Random, text: &[u8]) -> Vec<u8> {
    let length = match random.below(12) {
        0 => text.len().saturating_sub(1),
        1 => random.between(0, text.len()),
        2 | 3 => text.len() + random.between(1, 200),
        _ => text.len(),
    };
    any_room(random, length)
}
