//! Recall and precision for a reagent lot, from the counts of its control runs (request d).

use crate::counts::Counts;
use crate::list::RECORDS_MOST;
use crate::refusal::{Refusal, LARGE_COUNTS, WRONG_RUNS};

pub const RUNS_MOST: usize = 256;

const MILLION: u64 = 1_000_000;

/// The six counts of a run. List 1 is the truth, list 2 what was called.
#[derive(Clone, Copy, Debug, Default, PartialEq, Eq)]
pub struct Run {
    pub truth: Counts,
    pub called: Counts,
}

/// Two whole numbers, the one over the other.
#[derive(Clone, Copy, Debug, PartialEq, Eq)]
pub struct Share {
    pub matched: u32,
    pub of: u32,
}

/// What is told of one list, of a run or of a lot.
#[derive(Clone, Copy, Debug, PartialEq, Eq)]
pub struct Totals {
    pub counts: Counts,
    pub entries: u32,
    /// Recall for the truth, precision for what was called.
    pub share: Share,
}

/// What is told of a lot: of the truth and of what was called.
#[derive(Clone, Copy, Debug, PartialEq, Eq)]
pub struct Lot {
    pub truth: Totals,
    pub called: Totals,
}

/// Row 30, then row 31, then the totals.
pub fn lot(runs: &[Run]) -> Result<Lot, Refusal> {
    if !(1..=RUNS_MOST).contains(&runs.len()) {
        return Err(Refusal::of_call(WRONG_RUNS));
    }
    if runs.iter().any(|run| is_large(run.truth) || is_large(run.called)) {
        return Err(Refusal::of_call(LARGE_COUNTS));
    }
    let truth = runs.iter().map(|run| run.truth).fold(Counts::default(), plus);
    let called = runs.iter().map(|run| run.called).fold(Counts::default(), plus);
    Ok(Lot { truth: Totals::of(truth), called: Totals::of(called) })
}

/// Whether the counts are more than a list can have entries, whatever their size.
fn is_large(counts: Counts) -> bool {
    counts.numbers().map(u64::from).iter().sum::<u64>() > RECORDS_MOST as u64
}

fn plus(one: Counts, other: Counts) -> Counts {
    Counts {
        matched: one.matched + other.matched,
        unmatched: one.unmatched + other.unmatched,
        undecided: one.undecided + other.undecided,
    }
}

impl Totals {
    fn of(counts: Counts) -> Totals {
        let entries = counts.numbers().iter().sum();
        let share = Share { matched: counts.matched, of: entries - counts.undecided };
        Totals { counts, entries, share }
    }
}

impl Share {
    /// Parts per million, rounded down; none where the lower number is zero.
    pub fn ppm(self) -> Option<u32> {
        let parts = (u64::from(self.matched) * MILLION).checked_div(u64::from(self.of));
        parts.map(|parts| u32::try_from(parts).expect("matched is at most what it is of"))
    }
}
