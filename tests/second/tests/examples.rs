//! Examples 1 to 12 of document 01.

mod common;

use common::calls::{normal, Case};
use common::lists::{text, NAME};

fn assert_marks(case: &Case, marks: &str, plan: &[(u32, u32)]) {
    let found = case.marks().expect("the lists are accepted");
    let score = marks.bytes().filter(|mark| b"+-".contains(mark)).count() as u32;
    assert_eq!(found, (marks.to_string(), score));
    assert_eq!(case.plan_pairs(), plan);
}

fn assert_normal(reference: &str, read: &str, written: &str) {
    let found = normal(reference.as_bytes(), NAME, &text(&[read])).expect("accepted");
    assert_eq!(found, text(&[written]));
}

#[test]
fn example_1_a_deletion_at_either_end_of_a_repeat() {
    let case = Case::new("GCATATG", &["2 CAT C 1/1"], &["4 TAT T 1/1"]);
    assert_marks(&case, "++", &[(0, 2)]);
    let printed = "list\tPOS\tcluster\tmark\n1\t2\t0\t+\n2\t4\t0\t+\ntotal\t2\t0\t0\t2\n";
    assert_eq!(case.printed(), printed);
}

#[test]
fn example_2_normal_form_shifts_left() {
    assert_normal("GCATATG", "4 TAT T 1/1", "2 CAT C 1/1");
}

#[test]
fn example_3_normal_form_at_pos_1_has_no_empty_allele() {
    assert_normal("AACG", "2 AC C 1/1", "1 AA A 1/1");
}

#[test]
fn example_4_same_end_stays_at_pos_1() {
    assert_normal("ACG", "1 AC C 1/1", "1 AC C 1/1");
}

#[test]
fn example_5_normal_form_trims_left() {
    assert_normal("ACG", "1 ACG ACT 1/1", "3 G T 1/1");
}

#[test]
fn example_6_a_gap_with_a_period_is_no_cut() {
    let case = Case::new("GCATATATATG", &["2 CAT C 1/1"], &["8 TAT T 1/1"]);
    assert_marks(&case, "++", &[(0, 2)]);
}

#[test]
fn example_7_a_wide_gap_is_a_cut() {
    let case = Case::new("TATGCAGT", &["1 TAT T 1/1"], &["7 G C 1/1"]);
    assert_marks(&case, "00", &[(0, 1), (1, 1)]);
    let printed = "list\tPOS\tcluster\tmark\n1\t1\t0\t0\n2\t7\t1\t0\ntotal\t0\t2\t0\t0\n";
    assert_eq!(case.printed(), printed);
}

#[test]
fn example_8_a_gap_no_longer_than_g_is_no_cut() {
    let case = Case::new("TATGCGT", &["1 TAT T 1/1"], &["6 G C 1/1"]);
    assert_marks(&case, "00", &[(0, 2)]);
}

#[test]
fn example_9_one_entry_matches_two() {
    let case = Case::new("TGCCGT", &["2 GCCG CCGA 1/1"], &["1 TG T 1/1", "5 G GA 1/1"]);
    assert_marks(&case, "+++", &[(0, 3)]);
}

#[test]
fn example_10_copies_may_be_exchanged_but_het_is_not_homozygous() {
    let exchanged = Case::new("GAC", &["2 A C 0/1"], &["2 A C 1/0"]);
    assert_marks(&exchanged, "+-", &[(0, 2)]);
    let unlike = Case::new("GAC", &["2 A C 0/1"], &["2 A C 1/1"]);
    assert_marks(&unlike, "00", &[(0, 2)]);
}

#[test]
fn example_11_two_entries_of_one_list_match_the_reference() {
    let case = Case::new("GAAC", &["1 G GA 1/1", "2 AA A 1/1"], &[]);
    assert_marks(&case, "++", &[(0, 2)]);
}

#[test]
fn example_12_twelve_are_decided_and_thirteen_are_not() {
    let copies = ["2 A C 1/1"; 7];
    let decided = Case::new("GAC", &copies[..6], &copies[..6]);
    assert_marks(&decided, "+00000+00000", &[(0, 12)]);
    let undecided = Case::new("GAC", &copies, &copies[..6]);
    assert_marks(&undecided, "?????????????", &[(0, 13)]);
    let printed = undecided.printed();
    assert_eq!(printed.lines().last(), Some("total\t0\t0\t13\t0"));
}
