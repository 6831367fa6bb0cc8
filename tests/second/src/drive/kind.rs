//! Kinds of answers: a run is to come upon each kind that its call has.

use super::answered::*;
use super::at_allele::{at_allele, AT_ALLELES};
use super::case::{Answer, Call, Case};
use super::draw::{Asked, CALLS};
use super::large;
use super::lower_case::{all_beside, beside};
use super::room;
use std::fmt::{self, Display};

/// The call, the number and list of its answer and, where it is not refused, what it did; where it is refused for ALT, at which allele.
#[derive(Clone, Copy, Debug, PartialEq, Eq, PartialOrd, Ord)]
pub struct Kind {
    pub call: &'static str,
    pub number: u32,
    pub list: u32,
    pub what: &'static str,
}

/// The rows that concern a list's text or a line of it, and no allele of ALT.
const OF_A_LIST: [u32; 12] = [3, 4, 5, 6, 7, 8, 9, 11, 12, 13, 14, 15];

/// What a call that is not refused can have done, with the list of its answer.
type Answered = [(u32, &'static str)];

/// A call's name, what it can have done, the rows that concern it and no list, and how many lists it has.
fn of_call(asked: Asked) -> (&'static str, &'static Answered, &'static [u32], u32) {
    match asked {
        Asked::Allele => ("allele", &OF_ALLELE, &[1, 18], 1),
        Asked::Normal => ("normal", &OF_NORMAL, &[1, 2], 1),
        Asked::Plan => ("plan", &OF_PLAN, &[1, 2], 2),
        Asked::Mark => ("mark", &OF_MARK, &[1, 2, 16, 17], 2),
        Asked::Count => ("count", &OF_COUNT, &[1, 2], 2),
        Asked::MarkAll => ("mark_all", &OF_MARK_ALL, &[1, 2], 2),
        Asked::Entries => ("entries", &OF_ENTRIES, &[1, 2], 2),
        Asked::Version => ("version", &OF_VERSION, &[], 0),
        Asked::Mutated => ("", &[], &[], 0),
    }
}

/// The kinds that the calls of a run can answer.
pub fn kinds(asked: Asked) -> Vec<Kind> {
    if asked == Asked::Mutated {
        return kinds_of_small_lists();
    }
    let (call, answered, of_the_call, lists) = of_call(asked);
    let of_large: &Answered = match asked {
        Asked::Plan => &large::PLANNED,
        Asked::Mark | Asked::MarkAll => &large::MARKED,
        _ => &[],
    };
    let answered = answered.iter().chain(of_large).map(|(list, what)| (0, *list, *what));
    let of_the_call = of_the_call.iter().map(|number| (*number, 0, ""));
    let of_a_list = || OF_A_LIST.into_iter().map(|number| (number, "")).chain(AT_ALLELES);
    let of_a_list =
        (1..=lists).flat_map(|list| of_a_list().map(move |(number, what)| (number, list, what)));
    let kind = |(number, list, what)| Kind { call, number, list, what };
    answered.chain(of_the_call).chain(of_a_list).map(kind).collect()
}

/// Those of every call, but for as many entries as two lists can have, and for large clusters.
fn kinds_of_small_lists() -> Vec<Kind> {
    let is_small = |kind: &Kind| kind.what != "full" && !large::is_large(kind.what);
    CALLS.into_iter().flat_map(|(_, call)| kinds(call)).filter(is_small).collect()
}

/// What lower case and overlap do in the calls of a run, each told as a kind.
pub fn kinds_beside(asked: Asked) -> Vec<Kind> {
    if asked == Asked::Mutated {
        return CALLS.into_iter().flat_map(|(_, call)| kinds_beside(call)).collect();
    }
    let (call, .., lists) = of_call(asked);
    let of_marks: &[&str] = match asked {
        Asked::Mark | Asked::MarkAll => &room::OF_MARKS,
        _ => &[],
    };
    let of_marks = of_marks.iter().map(|what| (0, 0, *what));
    let kind = |(number, list, what)| Kind { call, number, list, what };
    all_beside(asked, lists).into_iter().chain(of_marks).map(kind).collect()
}

impl Kind {
    /// What lower case and overlap do in the case.
    pub fn beside(case: &Case) -> Vec<Kind> {
        let call = Kind::of(case).call;
        let kind = |(number, list, what)| Kind { call, number, list, what };
        let of_marks = of_marks(case).into_iter().map(|what| (0, 0, what));
        beside(case).into_iter().chain(of_marks).map(kind).collect()
    }

    pub fn of(case: &Case) -> Kind {
        let Answer { number, list, line, place, .. } = case.expected.answer;
        let what = match number {
            0 => answered(case),
            _ => at_allele(number, case.call.text(list.max(1)), line, place),
        };
        let call = match &case.call {
            Call::Allele { .. } => "allele",
            Call::Normal { .. } => "normal",
            Call::Plan { .. } => "plan",
            Call::Mark { .. } => "mark",
            Call::Count { .. } => "count",
            Call::MarkAll { .. } => "mark_all",
            Call::Entries { .. } => "entries",
            Call::Version => "version",
        };
        Kind { call, number, list, what }
    }
}

impl Display for Kind {
    fn fmt(&self, out: &mut fmt::Formatter) -> fmt::Result {
        let Kind { call, number, list, what } = self;
        match number {
            0 => write!(out, "{call} answered ({what})"),
            _ if what.is_empty() => write!(out, "{call} {number}/{list}"),
            _ => write!(out, "{call} {number}/{list} {what}"),
        }
    }
}
