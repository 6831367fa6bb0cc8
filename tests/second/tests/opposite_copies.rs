//! Request c: two chosen entries of one list may not overlap on the same copy where both carry an allele other than REF. A reference
//! allele takes no room.

mod common;

use common::calls::Case;
use common::lists::entry;
use common::searched::marks;
use second::choice::Choice::{self, Minus, Plus, Zero};
use second::donor::{carried, donor, is_separate};

/// A het deletion on copy 1, and on copy 0 a SNV under it.
const DELETION: &str = "2 ACT A 0/1";
const SNV: &str = "3 C G 1/0";

#[test]
fn a_het_deletion_and_a_snv_under_it_match_one_entry_that_spells_both() {
    let case = Case::new("GACTC", &[DELETION, SNV], &["2 ACT AGT,A 1/2"]);
    assert_eq!(case.marks(), Ok(("+++".into(), 3)));
    assert_eq!(case.plan_pairs(), [(0, 3)]);
    let printed =
        "list\tPOS\tcluster\tmark\n1\t2\t0\t+\n2\t2\t0\t+\n1\t3\t0\t+\ntotal\t3\t0\t0\t3\n";
    assert_eq!(case.printed(), printed);
    let mirrored = Case::new("GACTC", &["2 ACT AGT,A 1/2"], &[DELETION, SNV]);
    assert_eq!(mirrored.marks(), Ok(("+++".into(), 3)));
    // A list that has both matches itself.
    assert_eq!(marks("GACTC", &[DELETION, SNV], &[DELETION, SNV]), "++++");
}

#[test]
fn two_het_duplicates_match_one_homozygous_entry() {
    let case = Case::new("GAC", &["2 A C 0/1", "2 A C 0/1"], &["2 A C 1/1"]);
    assert_eq!(case.marks(), Ok(("+-+".into(), 3)));
    assert_eq!(marks("GAC", &["2 A C 0/1", "2 A C 1/0"], &["2 A C 1/1"]), "+++");
    assert_eq!(marks("GAC", &["2 A C 1/1"], &["2 A C 1/0", "2 A C 1/0"]), "++-");
}

#[test]
fn two_het_entries_of_one_copy_are_not_both_chosen() {
    let case = Case::new("GAC", &["2 A C 0/1", "2 A C 0/1"], &["2 A C 0/1"]);
    assert_eq!(case.marks(), Ok(("+0+".into(), 2)));
    assert_eq!(marks("GAC", &["2 A C 0/1", "2 A C 1/0"], &["2 A C 1/0"]), "+0-");
    // A deletion and a SNV under it on one copy: nothing can spell both.
    assert_eq!(marks("GACTC", &[DELETION, "3 C G 0/1"], &[DELETION]), "++0");
    assert_eq!(marks("GACTC", &[DELETION, "3 C G 0/1"], &["3 C G 0/1"]), "0++");
}

#[test]
fn a_homozygous_entry_has_room_on_both_copies_alone() {
    assert_eq!(marks("GAC", &["2 A C 1/1", "2 A C 0/1"], &["2 A C 1/1"]), "+0+");
    assert_eq!(marks("GAC", &["2 A C 1/0", "2 A C 1/1"], &["2 A C 1/1"]), "0++");
    assert_eq!(marks("GACTC", &["2 ACT A 1/1", SNV], &["2 ACT AGT,A 1/2"]), "000");
    // Example 12 stands, and with het entries two of each list are chosen.
    let (homozygous, het) = (["2 A C 1/1"; 6], ["2 A C 0/1"; 6]);
    assert_eq!(Case::new("GAC", &homozygous, &homozygous).marks(), Ok(("+00000+00000".into(), 2)));
    assert_eq!(Case::new("GAC", &het, &het).marks(), Ok(("+-0000+-0000".into(), 4)));
    let seven = Case::new("GAC", &["2 A C 0/1"; 7], &het).marks();
    assert_eq!(seven, Ok(("?????????????".into(), 0)));
}

#[test]
fn an_entry_of_two_alts_takes_room_on_both_copies() {
    let two = "2 A C,T 1/2";
    assert_eq!(marks("GAC", &[two, two], &[two]), "+0+");
    assert_eq!(marks("GAC", &[two, "2 A C 0/1"], &[two]), "+0+");
    assert_eq!(marks("GAC", &["2 A C 1/0", "2 A T 0/1"], &[two]), "+++");
    assert_eq!(marks("GAC", &["2 A C 0/1", "2 A T 1/0"], &["2 A C,T 2/1"]), "+++");
    assert_eq!(marks("GAC", &["2 A C 0/1", "2 A T 1/0"], &[two]), "++-");
}

#[test]
fn an_alt_that_is_not_carried_takes_no_room() {
    let second = ["2 ACT ATT,AGT 1/2"];
    assert_eq!(marks("GACTC", &["2 ACT A,AGT 0/2", "3 C T 1/0"], &second), "+++");
    assert_eq!(marks("GACTC", &["2 ACT A,AGT 2/0", "3 C T 0/1"], &second), "+-+");
}

#[test]
fn an_exchanged_entry_takes_room_on_the_other_copy() {
    // Both are written for copy 1, and one is exchanged.
    let both = [DELETION, "3 C G 0/1"];
    assert_eq!(marks("GACTC", &both, &["2 ACT AGT,A 1/2"]), "++-");
    assert_eq!(marks("GACTC", &both, &["2 ACT A,AGT 1/2"]), "+--");
    // Written for opposite copies, and both exchanged.
    assert_eq!(marks("GACTC", &["2 ACT AGT,A 1/2"], &["2 ACT A 1/0", "3 C G 0/1"]), "+--");
}

#[test]
fn of_three_entries_two_fit_on_two_copies() {
    let three = ["2 A C 0/1"; 3];
    assert_eq!(marks("GAC", &three, &["2 A C 1/1"]), "+-0+");
    assert_eq!(marks("GAC", &three, &three), "+-0+-0");
    let unlike = ["2 A C 0/1", "2 A G 0/1", "2 A T 0/1"];
    assert_eq!(marks("GAC", &unlike, &["2 A G,T 1/2"]), "0+--");
    // Two SNVs under the deletion share its other copy.
    let under = [DELETION, SNV, "4 T G 1/0"];
    assert_eq!(marks("GACTC", &under, &["2 ACT AGG,A 1/2"]), "++++");
    assert_eq!(marks("GACTC", &["2 ACT A 1/0", SNV, "4 T G 0/1"], &["2 ACT AGT,A 2/1"]), "++-0");
}

#[test]
fn an_insertion_overlaps_by_the_base_that_it_replaces() {
    assert_eq!(marks("GACTC", &[DELETION, "2 A AGG 1/0"], &["2 ACT A,AGGCT 2/1"]), "+++");
    assert_eq!(marks("GACTC", &[DELETION, "2 A AGG 0/1"], &["2 ACT AGG 0/1"]), "000");
    // Two insertions behind one base, on one copy and on both.
    assert_eq!(marks("GAC", &["2 A AG 0/1", "2 A AT 0/1"], &["2 A AG,AT 2/1"]), "+-+");
    assert_eq!(marks("GAC", &["2 A AG 0/1", "2 A AT 0/1"], &["2 A AGT 0/1"]), "000");
}

#[test]
fn touching_spans_do_not_overlap() {
    assert_eq!(marks("GACTC", &["1 GA G 0/1", "3 C T 0/1"], &["1 GAC GT 0/1"]), "+++");
    assert_eq!(marks("GACTC", &["1 GA G 0/1", "3 C T 1/0"], &["1 GAC GC,GAT 2/1"]), "+++");
    assert_eq!(marks("GACTC", &["1 GA G 0/1", "2 A T 0/1"], &["1 GA GT 0/1"]), "0++");
}

#[test]
fn the_gap_rule_goes_by_spans_on_any_copy() {
    // The SNV is behind the span of the deletion; in front of its end it is in the cluster, on the other copy too.
    let apart = Case::new("GACTCGTAG", &[DELETION], &["8 A C 1/0"]);
    assert_eq!(apart.plan_pairs(), [(0, 1), (1, 1)]);
    assert_eq!(Case::new("GACTC", &[DELETION], &[SNV]).plan_pairs(), [(0, 2)]);
}

#[test]
fn a_donor_has_what_each_entry_carries_on_the_copy() {
    let list = [entry(DELETION), entry(SNV)];
    let donors = |choices: [Choice; 2]| {
        [0, 1].map(|copy| String::from_utf8(donor(b"GACTC", &list, &choices, copy)).expect("bases"))
    };
    for (choices, expected) in [
        ([Plus, Plus], Some(["GAGTC", "GAC"])),
        ([Minus, Minus], Some(["GAC", "GAGTC"])),
        ([Plus, Zero], Some(["GACTC", "GAC"])),
        ([Zero, Minus], Some(["GACTC", "GAGTC"])),
        ([Zero, Zero], Some(["GACTC", "GACTC"])),
        ([Plus, Minus], None),
        ([Minus, Plus], None),
    ] {
        assert_eq!(is_separate(&list, &choices), expected.is_some(), "{choices:?}");
        if let Some(expected) = expected {
            assert_eq!(donors(choices), expected);
        }
    }
}

#[test]
fn ref_is_carried_by_no_choice() {
    let one = entry("2 A C,T 0/2");
    let on_copies = |choice| [0, 1].map(|copy| carried(&one, choice, copy));
    assert_eq!(on_copies(Plus), [None, Some(&b"T"[..])]);
    assert_eq!(on_copies(Minus), [Some(&b"T"[..]), None]);
    assert_eq!(on_copies(Zero), [None, None]);
}
