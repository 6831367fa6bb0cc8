//! The last value taken and the first refused: texts, references, records, lent room, clusters
//! and the numbers that a call asks for.

mod common;

use common::calls::{normal, Case, OLD_CLUSTER, OLD_MARK};
use common::lists::{line, raw, text, text_of_length, FIRST_RECORD, NAME};
use common::refused::{assert_accepted, assert_refused};
use second::{Marked, Refusal, Shown};

#[test]
fn texts_of_65536_and_65537_bytes() {
    for (records, entries) in [(&[][..], 0), (&["2 C T 0/1"][..], 1)] {
        let most = text_of_length(records, 65_536);
        assert_eq!(most.len(), 65_536);
        assert_accepted("GCA", &most, entries);
        assert_eq!(normal(b"GCA", NAME, &most), Ok(most));
        let over = text_of_length(records, 65_537);
        assert_refused("GCA", &over, 3, 0);
    }
}

#[test]
fn references_of_0_1_65535_and_65536_bases() {
    let empty = text(&[]);
    for (length, taken) in [(0, false), (1, true), (65_535, true), (65_536, false)] {
        let reference = vec![b'N'; length];
        let refusal = Refusal { number: 1, list: 0, line: 0, place: 0 };
        let expected = if taken { Ok(vec![]) } else { Err(refusal) };
        let (first, second) = (empty.clone(), empty.clone());
        assert_eq!(Case { reference, first, second }.plan(), expected);
    }
}

#[test]
fn lists_of_512_and_513_records() {
    let records = |count| raw(vec![line("2 C T 0/1").into_bytes(); count]);
    assert_accepted("GCA", &records(511), 511);
    assert_accepted("GCA", &records(512), 512);
    assert_refused("GCA", &records(513), 15, FIRST_RECORD + 512);
}

#[test]
fn two_lists_of_512_records_fill_1024_marks_and_clusters() {
    let reference = "A".repeat(512);
    let records: Vec<Vec<u8>> =
        (1..=512).map(|pos| line(&format!("{pos} A C 1/1")).into_bytes()).collect();
    let full = raw(records);
    let case = Case { reference: reference.into(), first: full.clone(), second: full };
    assert_eq!(case.marks(), Ok(("+".repeat(1_024), 1_024)));
    let pairs: Vec<(u32, u32)> = (0..512).map(|number| (2 * number, 2)).collect();
    assert_eq!(case.plan_pairs(), pairs);
}

#[test]
fn as_many_clusters_as_entries() {
    let reference = "A".repeat(1_024);
    let records = |first: usize| {
        raw((0..512).map(|i| line(&format!("{} A C 1/1", first + 2 * i)).into_bytes()))
    };
    let case = Case { reference: reference.into(), first: records(1), second: records(2) };
    let singles: Vec<(u32, u32)> = (0..1_024).map(|number| (number, 1)).collect();
    assert_eq!(case.plan_pairs(), singles);
    assert_eq!(case.marks(), Ok(("0".repeat(1_024), 0)));
    let plan = case.plan().expect("accepted");
    let mut marks = vec![OLD_MARK; 1_024];
    assert_eq!(case.mark(&plan, 1_023, &mut marks), Ok(Marked::Score(0)));
    assert_eq!(marks[1_022..], [OLD_MARK, b'0']);
    let refusal = Refusal { number: 16, list: 0, line: 0, place: 0 };
    assert_eq!(case.mark(&plan, 1_024, &mut marks), Err(refusal));
}

#[test]
fn plan_and_marks_of_1023_1024_and_1025() {
    let case = Case::new("GCA", &["2 C T 0/1"], &["2 C T 0/1"]);
    let (reference, first, second) = (&case.reference, &case.first, &case.second);
    let refusal = Refusal { number: 2, list: 0, line: 0, place: 0 };
    for (room, small) in [(1_023, true), (1_024, false), (1_025, false)] {
        let (mut plan, mut marks) = (vec![OLD_CLUSTER; room], vec![OLD_MARK; room]);
        let expected = if small { Err(refusal) } else { Ok(1) };
        assert_eq!(second::plan(reference, NAME, first, second, &mut plan), expected);
        let expected = if small { Err(refusal) } else { Ok(Marked::Score(2)) };
        let marked = second::mark(reference, NAME, first, second, &plan, 0, &mut marks);
        assert_eq!(marked, expected);
        let expected = if small { Err(refusal) } else { Ok((1, 2)) };
        let marked = second::mark_all(reference, NAME, first, second, &mut plan, &mut marks);
        assert_eq!(marked, expected);
        let written = if small { 0 } else { 2 };
        assert!(marks[written..].iter().all(|mark| *mark == OLD_MARK));
    }
}

#[test]
fn clusters_of_12_and_13_entries_in_any_split() {
    for in_first in 0..=13 {
        let copies = ["2 A C 1/1"; 13];
        let twelve = Case::new("GAC", &copies[..in_first.min(12)], &copies[in_first.min(12)..12]);
        let (marks, score) = twelve.marks().expect("accepted");
        let matched = if (1..12).contains(&in_first) { 2 } else { 0 };
        assert_eq!((score, marks.contains('?')), (matched, false));
        let thirteen = Case::new("GAC", &copies[..in_first], &copies[in_first..]);
        assert_eq!(thirteen.marks(), Ok(("?".repeat(13), 0)));
    }
}

#[test]
fn only_the_large_cluster_is_undecided() {
    let mut records = vec!["2 A C 1/1"; 13];
    records.push("4 T G 1/1");
    let case = Case::new("GACT", &records, &["1 G T 0/1", "4 T G 1/1"]);
    assert_eq!(case.plan_pairs(), [(0, 1), (1, 13), (14, 2)]);
    assert_eq!(case.marks(), Ok((format!("0{}++", "?".repeat(13)), 2)));
    let plan = case.plan().expect("accepted");
    let mut marks = vec![OLD_MARK; 1_024];
    assert_eq!(case.mark(&plan, 1, &mut marks), Ok(Marked::Undecided));
    assert_eq!(&marks[..16], [&b"m"[..], &[b'?'; 13], b"mm"].concat());
}

#[test]
fn the_last_entry_and_the_last_allele() {
    let list = text(&["2 C T 0/1", "3 A GG,AT 1/2"]);
    let shown = |entry, allele| second::allele(b"GCA", NAME, &list, entry, allele);
    assert_eq!(shown(1, 0), Ok(Shown::Reference { start: 2, length: 1 }));
    let part = shown(1, 2).expect("the last ALT");
    assert_eq!(part.bytes(b"GCA", &list), b"AT");
    let refusal = Refusal { number: 18, list: 0, line: 0, place: 0 };
    for (entry, allele) in [(2, 0), (1, 3), (0, 2), (usize::MAX, 0), (0, usize::MAX)] {
        assert_eq!(shown(entry, allele), Err(refusal));
    }
}
