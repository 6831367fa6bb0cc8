//! What the programs print. `compare` prints the marks and totals, `normalise` the normal text, `counts` the
//! six counts of a run, `lot_report` the table of a lot.
//!
//! A refusal prints its one line and nothing else.

use crate::card::{count, mark_all, normal, ENTRIES_MOST};
use crate::clusters::Cluster;
use crate::counts::Counts;
use crate::list::{self, List};
use crate::merged::merged;
use crate::refusal::{Refusal, WRONG_REFERENCE};
use crate::report::report;

/// The name where a program is given none.
pub const NAME: &[u8] = b"chr1";

const HEADING: &str = "list\tPOS\tcluster\tmark\n";

/// What `compare` prints for the bytes of reference.txt, first.vcf and second.vcf, with this name.
pub fn compare(reference_file: &[u8], name: &[u8], first: &[u8], second: &[u8]) -> Vec<u8> {
    compared(reference_file, name, first, second).unwrap_or_else(refused)
}

/// What `normalise` prints for the bytes of reference.txt and first.vcf, with this name.
pub fn normalise(reference_file: &[u8], name: &[u8], first: &[u8]) -> Vec<u8> {
    normalised(reference_file, name, first).unwrap_or_else(refused)
}

/// What `counts` prints for the bytes of reference.txt, first.vcf and second.vcf, with this name.
pub fn counts(reference_file: &[u8], name: &[u8], first: &[u8], second: &[u8]) -> Vec<u8> {
    counted(reference_file, name, first, second).unwrap_or_else(refused)
}

/// What `lot_report` prints for the bytes of runs.tsv.
pub fn lot_report(runs: &[u8]) -> Vec<u8> {
    report(runs).unwrap_or_else(refused)
}

fn refused(refusal: Refusal) -> Vec<u8> {
    let Refusal { number, list, line, place } = refusal;
    format!("refused\t{number}\t{list}\t{line}\t{place}\n").into_bytes()
}

fn normalised(reference_file: &[u8], name: &[u8], first: &[u8]) -> Result<Vec<u8>, Refusal> {
    let mut room = vec![0; first.len()];
    let length = normal(bases(reference_file)?, name, first, &mut room)?;
    room.truncate(length);
    Ok(room)
}

fn compared(
    reference_file: &[u8],
    name: &[u8],
    first: &[u8],
    second: &[u8],
) -> Result<Vec<u8>, Refusal> {
    let reference = bases(reference_file)?;
    let mut plan = [Cluster::default(); ENTRIES_MOST];
    let mut marks = [0; ENTRIES_MOST];
    let (count, score) = mark_all(reference, name, first, second, &mut plan, &mut marks)?;
    let first = list::read(reference, name, 1, first)?;
    let second = list::read(reference, name, 2, second)?;
    Ok(table(&first, &second, &plan[..count as usize], &marks, score))
}

/// The counts of list 1, then those of list 2, on one line.
fn counted(
    reference_file: &[u8],
    name: &[u8],
    first: &[u8],
    second: &[u8],
) -> Result<Vec<u8>, Refusal> {
    let reference = bases(reference_file)?;
    let (mut plan, mut marks) = ([Cluster::default(); ENTRIES_MOST], [0; ENTRIES_MOST]);
    mark_all(reference, name, first, second, &mut plan, &mut marks)?;
    let both = count(reference, name, first, second, &marks)?;
    let numbers = both.map(|counts| counts.numbers().map(|number| number.to_string()).join("\t"));
    Ok(format!("{}\n", numbers.join("\t")).into_bytes())
}

/// The bases of a reference file, which ends in one LF; without it row 1 holds.
fn bases(reference_file: &[u8]) -> Result<&[u8], Refusal> {
    let bases = reference_file.strip_suffix(b"\n");
    bases.ok_or(Refusal::of_call(WRONG_REFERENCE))
}

/// The heading, one line an entry in merged order, and the totals, counted from the marks.
fn table(first: &List, second: &List, plan: &[Cluster], marks: &[u8], score: u32) -> Vec<u8> {
    let entries = [first.entries(), second.entries()];
    let lists = entries.each_ref().map(Vec::as_slice);
    let items = merged(lists);
    let marks = &marks[..items.len()];
    let mut out = String::from(HEADING);
    for (number, item) in items.iter().enumerate() {
        let (list, pos) = (item.list + 1, item.of(lists).pos);
        let before_it = |cluster: &&Cluster| cluster.first as usize <= number;
        let cluster = plan.iter().take_while(before_it).count() - 1;
        let mark = char::from(marks[number]);
        out += &format!("{list}\t{pos}\t{cluster}\t{mark}\n");
    }
    let Counts { matched, unmatched, undecided } = Counts::of(marks.iter().copied());
    out += &format!("total\t{matched}\t{unmatched}\t{undecided}\t{score}\n");
    out.into_bytes()
}
