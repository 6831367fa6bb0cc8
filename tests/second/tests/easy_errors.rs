//! The errors that come easily, as document 01 lists them: each test fails for a card that makes one.

mod common;

use common::calls::{normal, Case};
use common::lists::{entry, text, NAME};
use second::normal_loop::normal_loop;

#[test]
fn equal_normal_forms_are_not_the_meaning_of_a_match() {
    let reference = "TGCCGT";
    let (first, second) = (["2 GCCG CCGA 1/1"], ["1 TG T 1/1", "5 G GA 1/1"]);
    for record in first.iter().chain(&second) {
        let form = normal_loop(reference.as_bytes(), &entry(record));
        assert_eq!(form, entry(record), "each is normal, and none is another");
    }
    let marks = Case::new(reference, &first, &second).marks();
    assert_eq!(marks, Ok(("+++".into(), 3)));
}

#[test]
fn a_long_gap_in_a_repeat_is_no_cut() {
    let case = Case::new("GCATATATATG", &["2 CAT C 1/1"], &["8 TAT T 1/1"]);
    assert_eq!(case.plan_pairs(), [(0, 2)], "the gap ATA is longer than g = 2");
}

#[test]
fn one_list_alone_may_have_chosen_entries() {
    let case = Case::new("GAAC", &["1 G GA 1/1", "2 AA A 1/1"], &[]);
    assert_eq!(case.marks(), Ok(("++".into(), 2)));
    let mirrored = Case::new("GAAC", &[], &["1 G GA 1/1", "2 AA A 1/1"]);
    assert_eq!(mirrored.marks(), Ok(("++".into(), 2)));
}

#[test]
fn a_shift_ends_at_pos_1() {
    let shifted = normal(b"AACG", NAME, &text(&["2 AC C 1/1"]));
    assert_eq!(shifted, Ok(text(&["1 AA A 1/1"])));
    let long = normal(b"AAAAAAAC", NAME, &text(&["6 AA A 1/1"]));
    assert_eq!(long, Ok(text(&["1 AA A 1/1"])));
    let grown = normal(b"AAAAAAAC", NAME, &text(&["6 A AAA 1/1"]));
    assert_eq!(grown, Ok(text(&["1 A AAA 1/1"])));
}

#[test]
fn a_shift_may_bring_an_n_into_alt() {
    let written = normal(b"CNAAG", NAME, &text(&["3 AA A 1/1"]));
    assert_eq!(written, Ok(text(&["2 NA N 1/1"])));
}

#[test]
fn a_het_entry_is_not_a_homozygous_one() {
    let unlike = Case::new("GAC", &["2 A C 0/1"], &["2 A C 1/1"]);
    assert_eq!(unlike.marks(), Ok(("00".into(), 0)));
    let other_copy = Case::new("GAC", &["2 A C 1/0"], &["2 A C 1/1"]);
    assert_eq!(other_copy.marks(), Ok(("00".into(), 0)));
    let exchanged = Case::new("GAC", &["2 A C 0/1"], &["2 A C 1|0"]);
    assert_eq!(exchanged.marks(), Ok(("+-".into(), 2)));
}
