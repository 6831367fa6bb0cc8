//! Which refusal is answered where several rows hold: calls 1; 2; list 1; list 2; 17; 16; 18,
//! within a list 3 and then the lines from the top, on a line 4, 5, 15 and 6 to 14, with 20 to 23 in 10's place.

mod common;

use common::calls::{normal, Case, OLD_CLUSTER, OLD_MARK};
use common::lists::{line, raw, text, FIRST_RECORD, NAME};
use common::refused::{assert_refused, assert_refused_at};
use second::{Cluster, Refusal};

const REFERENCE: &str = "GCATATG";

/// The rows that can hold on a record line, in the order they are tried, with one of those on ALT. refused_alts.rs has their own order.
fn rows_with(alt: u32) -> [u32; 12] {
    [4, 5, 15, 6, 7, 8, 9, alt, 11, 12, 13, 14]
}

const ON_ALT: [u32; 4] = [20, 21, 22, 23];

/// A call's inputs: the reference, list 1, list 2, the room for the plan and for the marks.
type Inputs<'a> = (&'a [u8], &'a [u8], &'a [u8], usize, usize);

fn assert_pair_refused(inputs: Inputs, number: u32, list: u32, line: u32) {
    let (reference, first, second, plan_room, marks_room) = inputs;
    let refusal = Refusal { number, list, line, place: 0 };
    let mut plan = vec![OLD_CLUSTER; plan_room];
    let mut marks = vec![OLD_MARK; marks_room];
    // `plan` has no marks, so where only these are too small, row 2 does not hold for it.
    if number != 2 || plan_room < 1_024 {
        assert_eq!(second::plan(reference, NAME, first, second, &mut plan), Err(refusal));
    }
    let marked = second::mark(reference, NAME, first, second, &plan, usize::MAX, &mut marks);
    assert_eq!(marked, Err(refusal));
    let marked = second::mark_all(reference, NAME, first, second, &mut plan, &mut marks);
    assert_eq!(marked, Err(refusal));
    assert!(plan.iter().all(|record| *record == OLD_CLUSTER));
    assert!(marks.iter().all(|mark| *mark == OLD_MARK));
}

#[test]
fn calls_judge_the_reference_then_the_room_then_list_1_then_list_2() {
    let (good, bad) = (text(&["2 C T 0/1"]), text(&["2 A T 0/1"]));
    assert_pair_refused((b"x", b"", b"", 0, 0), 1, 0, 0);
    assert_pair_refused((b"", &good, &good, 1_024, 0), 1, 0, 0);
    assert_pair_refused((b"GCA", b"", b"", 0, 1_024), 2, 0, 0);
    assert_pair_refused((b"GCA", b"", b"", 1_024, 0), 2, 0, 0);
    assert_pair_refused((b"GCA", &bad, b"", 1_024, 1_024), 13, 1, FIRST_RECORD);
    assert_pair_refused((b"GCA", b"", &bad, 1_024, 1_024), 3, 1, 0);
    assert_pair_refused((b"GCA", &good, &bad, 1_024, 1_024), 13, 2, FIRST_RECORD);
}

#[test]
fn mark_judges_the_plan_before_the_cluster_number() {
    let case = Case::new(REFERENCE, &["2 C T 0/1"], &[]);
    let mut marks = vec![OLD_MARK; 1_024];
    let wrong = [Cluster { first: 0, count: 2 }];
    let refusal = |number| Refusal { number, list: 0, line: 0, place: 0 };
    assert_eq!(case.mark(&wrong, 1, &mut marks), Err(refusal(17)));
    assert_eq!(case.mark(&[Cluster { first: 0, count: 1 }], 1, &mut marks), Err(refusal(16)));
}

#[test]
fn normal_judges_the_reference_then_the_room_then_the_list() {
    let refusal = |number, list| Refusal { number, list, line: 0, place: 0 };
    let long = vec![b'#'; 65_537];
    let mut room = vec![OLD_MARK; 65_536];
    assert_eq!(second::normal(b"", NAME, &long, &mut room), Err(refusal(1, 0)));
    assert_eq!(second::normal(b"A", NAME, &long, &mut room), Err(refusal(2, 0)));
    assert!(room.iter().all(|byte| *byte == OLD_MARK));
    assert_eq!(normal(b"A", NAME, &long), Err(refusal(3, 1)));
}

#[test]
fn allele_judges_the_reference_then_the_list_then_the_numbers() {
    let shown = |reference: &[u8], text: &[u8]| {
        second::allele(reference, NAME, text, usize::MAX, usize::MAX).expect_err("refused")
    };
    assert_eq!(shown(b"", b""), Refusal { number: 1, list: 0, line: 0, place: 0 });
    assert_eq!(shown(b"A", b""), Refusal { number: 3, list: 1, line: 0, place: 0 });
    assert_eq!(shown(b"A", b"\n"), Refusal { number: 5, list: 1, line: 1, place: 0 });
    assert_eq!(shown(b"A", &text(&[])), Refusal { number: 18, list: 0, line: 0, place: 0 });
}

#[test]
fn the_text_as_a_whole_is_judged_before_its_lines() {
    let bad = text(&["0 X X 9/9"]);
    assert_refused(REFERENCE, &bad[..bad.len() - 1], 3, 0);
    let long = [vec![b'x'; 2_000], vec![b'\n'; 65_000]].concat();
    assert_refused(REFERENCE, &long, 3, 0);
}

#[test]
fn an_earlier_line_comes_first_whatever_its_row() {
    for alt in ON_ALT {
        for &early in &rows_with(alt) {
            for &late in rows_with(alt).iter().filter(|row| ![14, 15].contains(*row)) {
                // What is about another row on ALT alone is tried once.
                if alt == 20 || [early, late].contains(&alt) {
                    assert_line_refused(&[early], Some(late));
                }
            }
        }
    }
}

#[test]
fn on_a_line_the_rows_are_tried_in_their_order() {
    for alt in ON_ALT {
        for (number, &first) in rows_with(alt).iter().enumerate() {
            for &second in &rows_with(alt)[number..] {
                if alt == 20 || [first, second].contains(&alt) {
                    assert_line_refused(&[first, second], None);
                }
            }
        }
    }
}

#[test]
fn all_rows_at_once_answer_the_first() {
    for alt in ON_ALT {
        for number in 0..12 {
            assert_line_refused(&rows_with(alt)[number..], None);
        }
    }
}

/// A line on which these rows hold, and behind it one on which `late` holds, are refused with the first of the rows.
fn assert_line_refused(rows: &[u32], late: Option<u32>) {
    let mut lines = lines_before(rows.contains(&15));
    let line = faulty(rows);
    let place = if ON_ALT.contains(&rows[0]) { place(rows[0], &line) } else { 0 };
    lines.push(line);
    let at = 2 + lines.len() as u32;
    lines.extend(late.map(|row| faulty(&[row])));
    assert_refused_at(REFERENCE, &raw(lines), rows[0], at, place);
}

/// Where the allele begins: in the field behind the fourth TAB; for row 23, and for row 20 as `faulty` has it, behind the comma.
fn place(row: u32, line: &[u8]) -> u32 {
    let before = if [20, 23].contains(&row) { b',' } else { b'\t' };
    let alt: usize = line.split(|byte| *byte == b'\t').take(4).map(|field| field.len() + 1).sum();
    let behind = line[alt - 1..].iter().position(|byte| *byte == before).expect("ALT");
    (alt + behind) as u32
}

/// Good records at POS 2: 512 of them to make the next the 513th, else one.
fn lines_before(full: bool) -> Vec<Vec<u8>> {
    vec![line("2 C T 0/1").into_bytes(); if full { 512 } else { 1 }]
}

/// A record line on which each of the rows holds, given in the order they are tried; 14 and 15 hold where it stands behind POS 2 and
/// behind 512 records.
fn faulty(rows: &[u32]) -> Vec<u8> {
    let good = line("2 C T 0/1");
    let mut fields: Vec<String> = good.split('\t').map(String::from).collect();
    // POS 1 with the right REF first, so that the faults of 13, 9 and 8 go over it.
    for row in rows.iter().rev() {
        match row {
            4 => fields[7] = "x".repeat(1_025),
            5 => fields[0].insert(0, '#'),
            6 => fields.push("eleventh".into()),
            7 => fields[0] = "chr2".into(),
            8 => fields[1] = "0".into(),
            9 => fields[3] = "X".into(),
            20 => fields[4] = "TT,".into(),
            21 => fields[4] = ".".into(),
            22 => fields[4] = fields[3].clone(),
            23 => fields[4] = "TT,TT".into(),
            11 => fields[8] = "DP".into(),
            12 => fields[9] = "0/0".into(),
            13 => fields[3] = "N".into(),
            14 => (fields[1], fields[3]) = ("1".into(), "G".into()),
            _ => {}
        }
    }
    fields.join("\t").into_bytes()
}
