//! Request b: two bases are equal if they are the same letter in either case, in reference, REF and ALT alike; what is written of them is
//! in upper case, what is carried keeps its bytes, and all else is compared as it was. Refused lines stand with their rows, what is
//! written in written_lists.rs.

mod common;

use common::calls::{normal, Case};
use common::lists::{all_lines, entry, line, raw, text, COLUMN_LINE, NAME, VERSION_LINE};
use common::refused::{assert_accepted, assert_refused, assert_refused_at};
use second::bases::{folded, is_base, same};
use second::{Refusal, Shown};

#[test]
fn ten_bytes_are_bases_and_no_other() {
    let bases: Vec<u8> = (0..=255).filter(|byte| is_base(*byte)).collect();
    assert_eq!(bases, b"ACGNTacgnt");
}

#[test]
fn two_bases_are_equal_if_they_are_the_same_letter() {
    for one in b"ACGTNacgtn" {
        let equal: Vec<u8> =
            b"ACGTNacgtn".iter().copied().filter(|other| same(&[*one], &[*other])).collect();
        assert_eq!(equal, [one.to_ascii_uppercase(), one.to_ascii_lowercase()]);
    }
    assert_eq!(folded(b"acgtnACGTN"), b"ACGTNACGTN");
    assert!(same(b"aCgN", b"AcGn") && !same(b"a", b"aa") && !same(b"n", b"a"));
}

#[test]
fn row_1_takes_lower_case_and_no_other_letter() {
    let empty = text(&[]);
    for reference in ["acgtn", "ACGTN", "aCgTn", "n"] {
        assert_accepted(reference, &empty, 0);
    }
    let refusal = Refusal { number: 1, list: 0, line: 0, place: 0 };
    for wrong in
        ["u", "r", "acgtnu", "acgtnR", "b", "acg.", "acg*", "acg-", "acg acg", "acg\n", "`"]
    {
        let case = Case { reference: wrong.into(), first: empty.clone(), second: empty.clone() };
        assert_eq!(case.plan(), Err(refusal));
        assert_eq!(normal(wrong.as_bytes(), NAME, &empty), Err(refusal));
    }
}

#[test]
fn ref_alt_and_reference_may_each_have_their_case() {
    for reference in ["GCATATG", "gcatatg", "GCatATg"] {
        for record in ["2 CAT C 1/1", "2 cat c 1/1", "2 cAt C 0/1", "2 CAT c,TT 1/2", "2 c n 1/1"] {
            assert_accepted(reference, &text(&[record]), 1);
        }
    }
}

#[test]
fn row_13_is_of_letters() {
    for reference in ["GCATATG", "gcatatg", "GCatATg"] {
        for wrong in
            ["2 A T 0/1", "2 a t 0/1", "2 ct T 0/1", "2 n T 0/1", "2 N T 0/1", "7 ga G 1/1"]
        {
            assert_refused(reference, &text(&[wrong]), 13, 3);
        }
    }
    for reference in ["GNG", "GnG", "gng"] {
        assert_accepted(reference, &text(&["2 N A 1/1", "2 n a 1/1", "2 nG n 0/1"]), 3);
        for letter in ["A", "c", "g", "T"] {
            assert_refused(reference, &text(&[&format!("2 {letter} GG 0/1")]), 13, 3);
        }
    }
}

#[test]
fn rows_22_and_23_are_of_letters() {
    for (record, row, place) in [
        ("2 C c 0/1", 22, 12),
        ("2 c C 0/1", 22, 12),
        ("2 CAT cAt 0/1", 22, 14),
        ("2 c T,C 0/1", 22, 14),
        ("2 C T,t 0/1", 23, 14),
        ("2 c n,N 1/2", 23, 14),
        ("2 C CAt,CaT 1/2", 23, 16),
    ] {
        for reference in ["GCATATG", "gcatatg"] {
            assert_refused_at(reference, &text(&[record]), row, 3, place);
        }
    }
    // An ALT of another letter is another allele, N too.
    assert_accepted("GCATATG", &text(&["2 C n 0/1", "2 C a,n 1/2", "2 c t,g 1/2"]), 3);
}

#[test]
fn chrom_format_and_header_are_compared_as_they_were() {
    let good = line("2 C T 0/1");
    for (wrong, row) in [
        (good.replacen("chr1", "CHR1", 1), 7),
        (good.replacen("chr1", "Chr1", 1), 7),
        (good.replace("\tGT\t", "\tgt\t"), 11),
        (good.replace("\tGT\t", "\tGt:DP\t"), 11),
    ] {
        assert_refused("gcatatg", &raw([wrong.into_bytes()]), row, 3);
    }
    let with = |version: &str, column: &str| all_lines([version, column].map(|line| line.into()));
    assert_refused("acg", &with(&VERSION_LINE.to_lowercase(), COLUMN_LINE), 5, 1);
    assert_refused("acg", &with(VERSION_LINE, &COLUMN_LINE.to_lowercase()), 5, 2);
    let case = Case::new("gca", &[], &["2 c t 0/1"]);
    let found = second::plan(
        &case.reference,
        b"CHR1",
        &case.first,
        &case.second,
        &mut [Default::default(); 1_024],
    );
    assert_eq!(found, Err(Refusal { number: 7, list: 2, line: 3, place: 0 }));
}

#[test]
fn an_allele_is_shown_as_it_was_lent() {
    let (reference, list) = (b"GCatATg", text(&["2 cAT c,CatAT 1/2"]));
    let shown = |allele| {
        second::allele(reference, NAME, &list, 0, allele).expect("shown").bytes(reference, &list)
    };
    assert_eq!([shown(0), shown(1), shown(2)], [&b"Cat"[..], b"c", b"CatAT"]);
    let part = second::allele(reference, NAME, &list, 0, 0);
    assert_eq!(part, Ok(Shown::Reference { start: 1, length: 3 }));
}

#[test]
fn entries_are_read_folded() {
    let read = second::read(b"gcatatg", NAME, 1, &text(&["2 cAT c,Ctn 2|0"])).expect("accepted");
    assert_eq!(read.entries(), [entry("2 CAT C,CTN 2/0")]);
}

#[test]
fn gaps_have_their_period_over_letters() {
    // Example 6, and example 7, where the gap has none in any case.
    for reference in ["GCATATATATG", "gcatatatatg", "GCATatATatG", "gcaTATaTaTg"] {
        let case = Case::new(reference, &["2 CAT C 1/1"], &["8 tAT t 1/1"]);
        assert_eq!((case.plan_pairs(), case.marks()), (vec![(0, 2)], Ok(("++".into(), 2))));
        assert_eq!(case.entries().expect("accepted")[1].cluster, 0);
    }
    for reference in ["TATGCAGT", "tatgcagt", "TATgcAGT"] {
        let case = Case::new(reference, &["1 tat T 1/1"], &["7 G c 1/1"]);
        assert_eq!((case.plan_pairs(), case.marks()), (vec![(0, 1), (1, 1)], Ok(("00".into(), 0))));
    }
}

#[test]
fn donors_are_of_letters() {
    for (first, second, marks) in [
        (&["2 A C 1/1"][..], &["2 a c 1/1"][..], "++"),
        (&["2 A c,T 1/2"], &["2 a t,C 2/1"], "++"),
        (&["2 A n 1/1"], &["2 a N 1/1"], "++"),
        (&["2 A n 1/1"], &["2 a c 1/1"], "00"),
        (&["1 GA gC 0/1"], &["2 a C 1/0"], "+-"),
        (&["1 g Ga 1/1", "2 aA a 1/1"], &[], "++"),
    ] {
        for reference in ["GAAC", "gaac", "GaAc"] {
            let (found, _) = Case::new(reference, first, second).marks().expect("accepted");
            assert_eq!(found, marks, "{reference} {first:?} {second:?}");
        }
    }
    let nine = Case::new("TGccGT", &["2 gccg ccga 1/1"], &["1 TG T 1/1", "5 G GA 1/1"]);
    assert_eq!(nine.marks(), Ok(("+++".into(), 3)));
}
