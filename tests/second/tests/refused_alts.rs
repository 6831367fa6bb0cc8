//! Rows 20 to 23: each fault of ALT at the first and at the second allele, alone and behind good records, in list 1 and in list 2, with
//! the byte of the line, from 0, where the allele at fault begins.

mod common;

use common::lists::{line, raw, text, FIRST_RECORD, NAME};
use common::refused::{assert_accepted, assert_refused_at};
use second::Shown;

const REFERENCE: &str = "GCATATG";

/// The field ALT of the lines here begins at this byte: `chr1`, `2`, `id` and `C` stand before it, each with its TAB.
const ALT: u32 = 12;

/// The line of this ALT, where REF is C, is refused with this row, at this byte of the field.
fn assert_alt_refused(alt: &str, row: u32, byte: u32) {
    let good = line("2 C T 0/1");
    let wrong = good.replace("\tT\t", &format!("\t{alt}\t"));
    let texts = [vec![&wrong], vec![&good, &good, &wrong], vec![&good, &wrong, &good, &wrong]];
    for (text, before) in texts.into_iter().zip([0, 2, 1]) {
        let text = raw(text.into_iter().map(|line| line.as_bytes().to_vec()));
        assert_refused_at(REFERENCE, &text, row, FIRST_RECORD + before, ALT + byte);
    }
}

#[test]
fn row_20_the_first_allele_is_empty_or_over_64_bytes() {
    let (long, longer) = ("A".repeat(65), "A".repeat(300));
    for first in [&long, &longer] {
        for alt in [first.clone(), format!("{first},T"), format!("{first},")] {
            assert_alt_refused(&alt, 20, 0);
        }
    }
    for alt in [",", ",T", ",,", ",C", ",t", ",u", ",T,G"] {
        assert_alt_refused(alt, 20, 0);
    }
}

#[test]
fn row_20_the_second_allele_is_empty_or_over_64_bytes() {
    let most = "A".repeat(64);
    assert_alt_refused("T,", 20, 2);
    assert_alt_refused("TATG,", 20, 5);
    assert_alt_refused(&format!("{most},"), 20, 65);
    assert_alt_refused(&format!("T,{}", "A".repeat(65)), 20, 2);
    assert_alt_refused(&format!("{most},{}", "A".repeat(200)), 20, 65);
}

#[test]
fn row_21_the_first_allele_has_a_wrong_byte() {
    for first in ["u", "r", "b", ".", "*", "<DEL>", "T[3[", "T ", " T", "TGu", "T;G", "R", "\0"] {
        assert_alt_refused(first, 21, 0);
        for second in ["T", "", "C", "t", "u", first] {
            assert_alt_refused(&format!("{first},{second}"), 21, 0);
        }
    }
}

#[test]
fn row_21_the_second_allele_has_a_wrong_byte() {
    for second in ["u", "x", ".", "*", "<DEL>", "T[3[", "G ", " g", "TGr", "\0", ",", "g,", ",G"] {
        assert_alt_refused(&format!("T,{second}"), 21, 2);
        assert_alt_refused(&format!("TAG,{second}"), 21, 4);
    }
}

#[test]
fn row_22_the_first_allele_is_ref() {
    for alt in ["C", "C,T", "C,", "C,u", "C,C", "C,T,G", "c", "c,T", "c,", "c,u", "c,C"] {
        assert_alt_refused(alt, 22, 0);
    }
}

#[test]
fn row_22_the_second_allele_is_ref() {
    assert_alt_refused("T,C", 22, 2);
    assert_alt_refused("CC,C", 22, 3);
    assert_alt_refused("t,c", 22, 2);
    assert_alt_refused("CC,c", 22, 3);
}

#[test]
fn row_23_the_second_allele_is_the_first() {
    assert_alt_refused("T,T", 23, 2);
    assert_alt_refused("CAT,CAT", 23, 4);
    for again in ["CAt", "cat", "CaT", "CAT"] {
        assert_alt_refused(&format!("CAT,{again}"), 23, 4);
        assert_alt_refused(&format!("{again},CAT"), 23, 4);
    }
    assert_alt_refused("t,T", 23, 2);
    assert_alt_refused("n,N", 23, 2);
    let most = "T".repeat(64);
    assert_alt_refused(&format!("{most},{most}"), 23, 65);
}

#[test]
fn the_second_allele_is_all_behind_the_first_comma() {
    assert_alt_refused("A,G,T", 21, 2);
    assert_alt_refused("A,G,", 21, 2);
    assert_alt_refused("A,,G", 21, 2);
    // 64 bytes with a comma among them, and one more.
    assert_alt_refused(&format!("A,{},{}", "G".repeat(31), "T".repeat(32)), 21, 2);
    assert_alt_refused(&format!("A,{},{}", "G".repeat(32), "T".repeat(32)), 20, 2);
}

#[test]
fn over_64_comes_before_a_wrong_byte() {
    for byte in ["A", "C", "c", ",", ".", "\0", " "] {
        assert_alt_refused(&format!("AA,{}", byte.repeat(65)), 20, 3);
    }
    for byte in ["u", ".", "\0"] {
        assert_alt_refused(&byte.repeat(65), 20, 0);
        assert_alt_refused(&byte.repeat(64), 21, 0);
    }
}

#[test]
fn the_whole_of_the_first_allele_comes_before_the_second() {
    let long = "T".repeat(65);
    let of_first = [("", 20), (&long, 20), ("u", 21), ("C", 22), ("c", 22)];
    for (first, row) in of_first {
        for second in ["", &long, "u", "C", "c", "T", first] {
            assert_alt_refused(&format!("{first},{second}"), row, 0);
        }
    }
}

#[test]
fn the_place_counts_all_bytes_before_the_allele() {
    let refused = |id: &str, name: &str, record: &str, row, place| {
        let line = line(record).replace("\tid\t", &format!("\t{id}\t")).replacen("chr1", name, 1);
        let found = second::read(REFERENCE.as_bytes(), name.as_bytes(), 1, &raw([line.into()]));
        let refusal = found.expect_err("refused");
        assert_eq!((refusal.number, refusal.line, refusal.place), (row, FIRST_RECORD, place));
    };
    for (length, name) in [(1, "c"), (2, "chr1"), (244, "chr1"), (900, "a name"), (960, "chr1")] {
        let id = "i".repeat(length);
        let start = (name.len() + length) as u32;
        refused(&id, name, "2 C CT,CT 0/1", 23, start + 6 + 3);
        refused(&id, name, "2 C . 0/1", 21, start + 6);
        refused(&id, name, "2 CATA CATA 0/1", 22, start + 9);
        refused(&id, name, "65535 C A, 0/1", 20, start + 10 + 2);
    }
}

#[test]
fn any_two_other_alleles_are_taken_and_shown() {
    let most = ["A".repeat(64), "T".repeat(64)];
    let lower = most.join(",").to_lowercase();
    for alt in
        ["T", "N", "T,A", "CC,CCC", "CA,T", &most.join(","), "t", "n", "t,A", "cc,CCC", &lower]
    {
        assert_accepted(REFERENCE, &text(&[&format!("2 C {alt} 0/1")]), 1);
    }
    let list = text(&["2 C TA,G 1/2"]);
    let start = list.len() - line("2 C TA,G 1/2").len() - 1 + ALT as usize;
    let shown = |allele| second::allele(REFERENCE.as_bytes(), NAME, &list, 0, allele);
    assert_eq!(shown(1), Ok(Shown::Text { start, length: 2 }));
    assert_eq!(shown(2), Ok(Shown::Text { start: start + 3, length: 1 }));
}
