//! What lower case does in a call, beside the kind of its answer: a run is to come upon each of these too.

use super::answered::left_plan;
use super::by_bytes::{clusters_differ, marks_differ, Entries};
use super::case::{Answer, Call, Case};
use super::draw::Asked;
use crate::part::{LF, TAB};

/// What is lent to a call that is answered.
const LENT: [&str; 4] = [
    "upper case alone",
    "a reference with lower case",
    "alleles with lower case",
    "REF in another case than the reference",
];

/// What such a call shows or writes, and where it would come to something else if bases were equal as bytes only.
const SHOWN: [&str; 2] = ["lower case of the reference shown", "lower case of the text shown"];
const RECASED_LINE: &str = "a line written in another case alone";
const BROUGHT: &str = "a lower-case base of the reference written";
const FORMS: &str = "other forms than by bytes";
const CLUSTERS: &str = "other clusters than by bytes";
const MARKS: &str = "other marks than by bytes";

/// Where a call is refused: for another byte or base, with lower case beside it; or for the case alone.
const BESIDE: &str = "beside lower case";
const RECASED: &str = "in another case";
const OF_A_LIST: [(u32, &str); 4] = [(7, RECASED), (9, BESIDE), (13, BESIDE), (21, BESIDE)];

/// An answer's number and list, and what lower case did.
pub type Beside = (u32, u32, &'static str);

/// What a run of this call, which has so many lists, is to come upon.
pub fn all_beside(asked: Asked, lists: u32) -> Vec<Beside> {
    let own: &[&str] = match asked {
        Asked::Version | Asked::Mutated => return Vec::new(),
        Asked::Allele => &SHOWN,
        Asked::Normal => &[RECASED_LINE, BROUGHT, FORMS],
        Asked::Plan | Asked::Entries => &[CLUSTERS],
        Asked::Mark | Asked::MarkAll => &[CLUSTERS, MARKS],
        Asked::Count => &[],
    };
    let answered = LENT.iter().chain(own).map(|what| (0, 0, *what));
    let of_lists = (1..=lists).flat_map(|list| OF_A_LIST.map(|(row, what)| (row, list, what)));
    answered.chain([(1, 0, BESIDE)]).chain(of_lists).collect()
}

/// What this case came upon.
pub fn beside(case: &Case) -> Vec<Beside> {
    let Answer { number, list, .. } = case.expected.answer;
    let found = match number {
        _ if matches!(case.call, Call::Version) => Vec::new(),
        0 => answered(case),
        _ => refused(case).into_iter().collect(),
    };
    let list = if number == 0 { 0 } else { list };
    found.into_iter().map(|what| (number, list, what)).collect()
}

/// Whether there is a base in lower case.
pub fn has_lower(bytes: &[u8]) -> bool {
    bytes.iter().any(|byte| b"acgtn".contains(byte))
}

fn refused(case: &Case) -> Option<&'static str> {
    let Answer { number, list, line, .. } = case.expected.answer;
    if number == 1 {
        return has_lower(&case.reference).then_some(BESIDE);
    }
    let (_, what) = OF_A_LIST.iter().find(|(row, _)| *row == number)?;
    let line = case.call.text(list).split(|byte| *byte == LF).nth(line as usize - 1);
    let fields: Vec<&[u8]> = line.expect("a line").split(|byte| *byte == TAB).collect();
    let is_so = match number {
        7 => fields[0].eq_ignore_ascii_case(&case.name),
        13 => has_lower(fields[3]) || has_lower(&case.reference),
        21 => has_lower(fields[4]),
        _ => has_lower(fields[3]),
    };
    is_so.then_some(*what)
}

fn answered(case: &Case) -> Vec<&'static str> {
    let entries = |list| Entries::of(case, case.call.text(list));
    let lists: Vec<Entries> = (1..=case.call.lists()).map(entries).collect();
    let lent = || lists.iter().flat_map(|list| &list.lent);
    let of_reference = has_lower(&case.reference);
    let of_alleles = lent().any(|entry| entry.alleles().any(has_lower));
    if !of_reference && !of_alleles {
        return vec![LENT[0]];
    }
    let is_recased =
        lent().any(|entry| case.reference[entry.start()..entry.end()] != entry.reference);
    let mut found = Vec::new();
    let mut note = |what, is_so| found.extend(Some(what).filter(|_| is_so));
    note(LENT[1], of_reference);
    note(LENT[2], of_alleles);
    note(LENT[3], is_recased);
    match &case.call {
        Call::Allele { text, .. } => {
            let Answer { list, line, values, .. } = &case.expected.answer;
            let shown = &[&case.reference, text][*list as usize][*line as usize..];
            note(SHOWN[*list as usize], has_lower(&shown[..values[0] as usize]));
        }
        Call::Normal { text, .. } => {
            let is_brought = |(read, form): &(usize, usize)| {
                form < read && has_lower(&case.reference[*form..=*form])
            };
            let written = &case.expected.left[0][..case.expected.answer.values[0] as usize];
            note(RECASED_LINE, is_line_recased(text, written));
            note(BROUGHT, lists[0].moves(case).iter().any(is_brought));
            note(FORMS, lists[0].forms_differ(case));
        }
        Call::Plan { .. } | Call::Entries { .. } => note(CLUSTERS, clusters_differ(case, &lists)),
        Call::Mark { plan, cluster, .. } => {
            note(CLUSTERS, clusters_differ(case, &lists));
            note(MARKS, marks_differ(case, &lists, &[plan[*cluster]]));
        }
        Call::MarkAll { .. } => {
            note(CLUSTERS, clusters_differ(case, &lists));
            note(MARKS, marks_differ(case, &lists, &left_plan(case)));
        }
        Call::Count { .. } | Call::Version => {}
    }
    found
}

/// Whether a line was written that is one of those read but for the case of letters.
fn is_line_recased(read: &[u8], written: &[u8]) -> bool {
    let read: Vec<&[u8]> = read.split(|byte| *byte == LF).collect();
    let is_recased = |line: &[u8]| {
        !read.contains(&line) && read.iter().any(|one| one.eq_ignore_ascii_case(line))
    };
    written.split(|byte| *byte == LF).any(is_recased)
}
