//! Case after case from a seed, for one of the calls: on lists as drawn, with aimed faults and with
//! blind damage. Or for all of them, each with a few changes by bytes.
//!
//! - `spoil` breaks what is lent
//! - `one_list` draws the calls of one list, `allele` and `normal`
//! - `two_lists` draws `plan` and `count`, `whole_pair` draws `mark_all` and `entries`, `marks` whole rows of calls of
//!   `mark` on one buffer; `cost` says how much there is to search
//! - `mutated` draws rows of all calls, with bytes changed
//! - `folders` draws what programs compare, counts and normalise read, `names` what they are given, `runs` what
//!   lot_report reads

mod cost;
pub mod folders;
mod marks;
mod mutated;
pub mod names;
mod one_list;
pub mod runs;
mod spoil;
mod two_lists;
mod whole_pair;

use super::case::{Call, Case};
use crate::drawn::random::Random;

/// The call that a run is about.
#[derive(Clone, Copy, Debug, PartialEq, Eq)]
pub enum Asked {
    Allele,
    Normal,
    Plan,
    Mark,
    Count,
    MarkAll,
    Entries,
    Version,
    /// All of them, with bytes changed in what they are lent.
    Mutated,
}

/// Each call by its name.
pub const CALLS: [(&str, Asked); 8] = [
    ("allele", Asked::Allele),
    ("normal", Asked::Normal),
    ("plan", Asked::Plan),
    ("mark", Asked::Mark),
    ("count", Asked::Count),
    ("mark_all", Asked::MarkAll),
    ("entries", Asked::Entries),
    ("version", Asked::Version),
];

impl Asked {
    pub fn named(name: &str) -> Option<Asked> {
        let mut all = CALLS.into_iter().chain([("mutated", Asked::Mutated)]);
        all.find(|(call, _)| *call == name).map(|(_, asked)| asked)
    }
}

/// Row `number` of cases of the run with this seed: a single one, but for `mark` and `mutated`.
pub fn draw(asked: Asked, seed: u64, number: u64) -> Vec<Case> {
    let random = &mut random_of(seed, number);
    match asked {
        Asked::Allele => vec![one_list::allele(random)],
        Asked::Normal => vec![one_list::normal(random)],
        Asked::Plan => vec![two_lists::plan(random)],
        Asked::Mark => marks::row(random),
        Asked::Count => vec![two_lists::count(random)],
        Asked::MarkAll => vec![whole_pair::mark_all(random)],
        Asked::Entries => vec![whole_pair::entries(random)],
        Asked::Version => vec![Case::new(b"", b"", Call::Version)],
        Asked::Mutated => mutated::row(random),
    }
}

/// An odd factor, so that runs of neighbouring seeds share no cases.
fn random_of(seed: u64, number: u64) -> Random {
    Random::new(seed.wrapping_mul(0xD134_2543_DE82_EF95).wrapping_add(number))
}

/// Any bytes, for lent room to hold before a call.
fn any_room(random: &mut Random, length: usize) -> Vec<u8> {
    (0..length).map(|_| random.below(256) as u8).collect()
}

/// A number that is no index, or is one in its lower 8, 16 or 32 bits only.
fn beyond(random: &mut Random, index: usize, count: usize) -> usize {
    match random.below(3) {
        0 => count,
        1 => index.wrapping_add(*random.pick(&[1 << 63, 1 << 32, 1 << 16, 1 << 8, 512, 1_024])),
        _ => *random.pick(&[usize::MAX, usize::MAX - 1, 1 << 63, count + 1]),
    }
}
