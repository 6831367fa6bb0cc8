//! What program `lot_report` reads and prints: the layout of `runs.tsv`, and the table of a lot.

use crate::counts::Counts;
use crate::list::TEXT_MOST;
use crate::lot::{lot, Lot, Run, Share, Totals};
use crate::part::{LF, TAB};
use crate::refusal::{Refusal, NOT_A_RUN, WRONG_HEADER, WRONG_TEXT};

/// Line 1 of `runs.tsv`.
pub const READ_HEADING: &str = "run\ttruth_matched\ttruth_unmatched\ttruth_undecided\t\
    called_matched\tcalled_unmatched\tcalled_undecided";

const PRINTED_HEADING: &str = "run\ttruth\ttruth_matched\ttruth_undecided\t\
    called\tcalled_matched\tcalled_undecided\t\
    recall\trecall_ppm\trecall_percent\tprecision\tprecision_ppm\tprecision_percent\n";

/// The name of the last line.
const LOT: &[u8] = b"lot";

/// A per cent is so many parts per million.
const PERCENT: u32 = 10_000;

/// A run and the name that its line begins with.
type Named<'a> = (&'a [u8], Run);

/// The table of the runs that `text` lists: each of them, and the lot.
pub fn report(text: &[u8]) -> Result<Vec<u8>, Refusal> {
    let named = read(text)?;
    let runs: Vec<Run> = named.iter().map(|(_, run)| *run).collect();
    let total = lot(&runs)?;
    let mut out = PRINTED_HEADING.as_bytes().to_vec();
    for (name, run) in named {
        // A run is told as a lot of its own.
        out.extend(line(name, lot(&[run])?));
    }
    out.extend(line(LOT, total));
    Ok(out)
}

/// Row 3, then row 5 on line 1, then row 6 on the lines from the top.
fn read(text: &[u8]) -> Result<Vec<Named<'_>>, Refusal> {
    if text.len() > TEXT_MOST || text.last() != Some(&LF) {
        return Err(Refusal::of_text(WRONG_TEXT, 0));
    }
    let mut lines = (1..).zip(text[..text.len() - 1].split(|byte| *byte == LF));
    if lines.next().map(|(_, line)| line) != Some(READ_HEADING.as_bytes()) {
        return Err(Refusal::of_line(WRONG_HEADER, 0, 1));
    }
    let named = |(number, line)| run(line).ok_or(Refusal::of_line(NOT_A_RUN, 0, number));
    lines.map(named).collect()
}

/// A name that is not empty and six numbers, with a TAB between.
fn run(line: &[u8]) -> Option<Named<'_>> {
    let fields: Vec<&[u8]> = line.split(|byte| *byte == TAB).collect();
    let [name, truth @ .., one, two, three] = <[&[u8]; 7]>::try_from(fields).ok()?;
    let run = Run { truth: counts(truth)?, called: counts([one, two, three])? };
    (!name.is_empty()).then_some((name, run))
}

fn counts(fields: [&[u8]; 3]) -> Option<Counts> {
    let [matched, unmatched, undecided] = fields.map(number);
    Some(Counts { matched: matched?, unmatched: unmatched?, undecided: undecided? })
}

/// Decimal, without a leading zero. What is above the largest u32 counts as that.
fn number(field: &[u8]) -> Option<u32> {
    let is_plain = field.iter().all(u8::is_ascii_digit) && !field.is_empty();
    if !is_plain || (field.len() > 1 && field[0] == b'0') {
        return None;
    }
    let more =
        |value: u32, digit: &u8| value.saturating_mul(10).saturating_add(u32::from(digit - b'0'));
    Some(field.iter().fold(0, more))
}

fn line(name: &[u8], Lot { truth, called }: Lot) -> Vec<u8> {
    let of_list = |totals: Totals| {
        format!("\t{}\t{}\t{}", totals.entries, totals.counts.matched, totals.counts.undecided)
    };
    let numbers = [of_list(truth), of_list(called), share(truth.share), share(called.share)];
    [name, numbers.concat().as_bytes(), b"\n"].concat()
}

/// As `n/d`, as parts per million and as a percentage with four digits behind the point.
fn share(share: Share) -> String {
    let Some(ppm) = share.ppm() else { return "\tnone".repeat(3) };
    let Share { matched, of } = share;
    format!("\t{matched}/{of}\t{ppm}\t{}.{:04}", ppm / PERCENT, ppm % PERCENT)
}
