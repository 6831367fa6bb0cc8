//! The last value taken and the first refused: alleles, lines and POS.

mod common;

use common::calls::normal;
use common::lists::{all_lines, line, raw, text, COLUMN_LINE, FIRST_RECORD, NAME, VERSION_LINE};
use common::refused::{assert_accepted, assert_refused, assert_refused_at};

#[test]
fn ref_of_64_and_65_bases() {
    let reference = "A".repeat(100);
    for (length, row) in [(63, None), (64, None), (65, Some(9)), (99, Some(9))] {
        let text = text(&[&format!("2 {} A 1/1", "A".repeat(length))]);
        match row {
            None => assert_accepted(&reference, &text, 1),
            Some(row) => assert_refused(&reference, &text, row, FIRST_RECORD),
        }
    }
}

#[test]
fn either_alt_of_64_and_65_bases() {
    let (most, over) = ("C".repeat(64), "C".repeat(65));
    for alt in [most.clone(), format!("{most},G"), format!("G,{most}")] {
        assert_accepted("GCA", &text(&[&format!("2 C {alt} 1/1")]), 1);
    }
    // ALT begins at byte 12 of a line.
    for (alt, place) in [
        (over.clone(), 12),
        (format!("{over},G"), 12),
        (format!("{over},{over}"), 12),
        (format!("G,{over}"), 14),
        (format!("{most},{over}"), 12 + 65),
    ] {
        assert_refused_at("GCA", &text(&[&format!("2 C {alt} 1/1")]), 20, FIRST_RECORD, place);
    }
}

#[test]
fn all_alleles_of_64_bases_are_normalised() {
    let reference = "A".repeat(200);
    let (replaced, alts) = ("A".repeat(64), [63, 62].map(|length| "A".repeat(length)));
    let read = text(&[&format!("100 {replaced} {},{} 1/2", alts[0], alts[1])]);
    let written = text(&["1 AAA AA,A 1/2"]);
    assert_eq!(normal(reference.as_bytes(), NAME, &read), Ok(written));
}

/// Header, column and record lines of exactly `length` bytes, each in an otherwise good text.
fn texts_with_a_line_of(length: usize) -> [(Vec<u8>, u32, usize); 3] {
    let filled = |begin: &str| format!("{begin}{}", "x".repeat(length - begin.len())).into_bytes();
    let [version, column] = [VERSION_LINE, COLUMN_LINE].map(|line| line.as_bytes().to_vec());
    let record = line("2 C T 0/1:");
    [
        (all_lines([version.clone(), filled("##"), column]), 2, 0),
        (all_lines([version, filled(COLUMN_LINE)]), 2, 0),
        (raw([filled(&record)]), FIRST_RECORD, 1),
    ]
}

#[test]
fn lines_of_1024_and_1025_bytes() {
    for (text, _, entries) in texts_with_a_line_of(1_024) {
        assert_accepted("GCA", &text, entries);
    }
    for (text, line, _) in texts_with_a_line_of(1_025) {
        assert_refused("GCA", &text, 4, line);
    }
}

#[test]
fn pos_0_01_65535_65536_and_900_digits() {
    let reference = "A".repeat(65_535);
    for taken in ["1 A C 1/1", "9 A C 1/1", "10 A C 1/1", "65534 AA A 1/1", "65535 A C 1/1"] {
        assert_accepted(&reference, &text(&[taken]), 1);
    }
    let digits = ["1", "0", "9", "6"].map(|digit| digit.repeat(900));
    for refused in ["0", "01", "065535", "65536", "65537", "70000", "99999", "100001"]
        .into_iter()
        .chain(digits.iter().map(String::as_str))
    {
        assert_refused(&reference, &text(&[&format!("{refused} A C 1/1")]), 8, FIRST_RECORD);
    }
}

#[test]
fn a_pos_behind_the_reference_is_row_13_and_not_8() {
    for (reference, wrong) in [("A", "2 A C 1/1"), ("AAA", "65535 A C 1/1"), ("AA", "2 AA A 1/1")] {
        assert_refused(reference, &text(&[wrong]), 13, FIRST_RECORD);
    }
    let long = "A".repeat(65_534);
    assert_refused(&long, &text(&["65535 A C 1/1"]), 13, FIRST_RECORD);
    assert_refused(&long, &text(&["65534 AA C 1/1"]), 13, FIRST_RECORD);
    assert_accepted(&long, &text(&["65534 A C 1/1"]), 1);
}
