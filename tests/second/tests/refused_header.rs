//! Rows 3, 4 and 5: the text as a whole, long lines, and the header.

mod common;

use common::lists::{all_lines, line, raw, text, COLUMN_LINE, VERSION_LINE};
use common::refused::{assert_accepted, assert_refused};

const REFERENCE: &str = "GCATATG";

fn lines(lines: &[&str]) -> Vec<u8> {
    all_lines(lines.iter().map(|line| line.as_bytes().to_vec()))
}

#[test]
fn row_3_a_text_that_does_not_end_in_lf() {
    assert_refused(REFERENCE, b"", 3, 0);
    assert_refused(REFERENCE, b"#", 3, 0);
    let good = text(&["2 C T 0/1"]);
    assert_refused(REFERENCE, &good[..good.len() - 1], 3, 0);
    assert_refused(REFERENCE, &[&good[..], b"#"].concat(), 3, 0);
}

#[test]
fn row_4_a_long_line_anywhere() {
    let long = format!("##{}", "x".repeat(1_023));
    assert_refused(REFERENCE, &lines(&[&long, COLUMN_LINE]), 4, 1);
    assert_refused(REFERENCE, &lines(&[VERSION_LINE, &long, COLUMN_LINE]), 4, 2);
    let long_column = format!("{COLUMN_LINE}{}", "x".repeat(1_024));
    assert_refused(REFERENCE, &lines(&[VERSION_LINE, &long_column]), 4, 2);
    assert_refused(REFERENCE, &lines(&[VERSION_LINE, COLUMN_LINE, &long]), 4, 3);
}

#[test]
fn row_5_line_1_is_exactly_the_version() {
    assert_refused(REFERENCE, b"\n", 5, 1);
    for wrong in [
        "",
        "#",
        "##fileformat=VCFv4.1",
        "##fileformat=VCFv4.2 ",
        "##fileformat=VCFv4.2\r",
        " ##fileformat=VCFv4.2",
        "##fileformat=VCFv4.",
        COLUMN_LINE,
    ] {
        assert_refused(REFERENCE, &lines(&[wrong, COLUMN_LINE]), 5, 1);
        assert_refused(REFERENCE, &lines(&[wrong, VERSION_LINE, COLUMN_LINE]), 5, 1);
    }
}

#[test]
fn row_5_the_first_line_without_two_hashes_is_the_column_line() {
    let spaces = COLUMN_LINE.replace('\t', " ");
    let empty_tenth = COLUMN_LINE.replace("sample", "");
    let nine = COLUMN_LINE.replace("\tsample", "");
    let eleven = format!("{COLUMN_LINE}\tmore");
    let eleven_empty = format!("{COLUMN_LINE}\t");
    let renamed = COLUMN_LINE.replace("QUAL", "qual");
    let record = line("2 C T 0/1");
    for wrong in
        ["", "#", "x", &spaces, &empty_tenth, &nine, &eleven, &eleven_empty, &renamed, &record]
    {
        assert_refused(REFERENCE, &lines(&[VERSION_LINE, wrong, COLUMN_LINE]), 5, 2);
        assert_refused(REFERENCE, &lines(&[VERSION_LINE, "##", wrong, COLUMN_LINE]), 5, 3);
    }
}

#[test]
fn row_5_a_missing_column_line_is_told_after_the_last() {
    assert_refused(REFERENCE, &lines(&[VERSION_LINE]), 5, 2);
    assert_refused(REFERENCE, &lines(&[VERSION_LINE, "##a", "##b"]), 5, 4);
}

#[test]
fn row_5_a_hash_line_after_the_column_line() {
    let record = line("2 C T 0/1");
    for wrong in ["#", "##", "##x", COLUMN_LINE, VERSION_LINE] {
        assert_refused(REFERENCE, &lines(&[VERSION_LINE, COLUMN_LINE, wrong]), 5, 3);
        let behind = lines(&[VERSION_LINE, "##x", COLUMN_LINE, &record, wrong, &record]);
        assert_refused(REFERENCE, &behind, 5, 5);
    }
}

#[test]
fn any_header_line_and_any_tenth_name_is_taken() {
    assert_accepted(REFERENCE, &lines(&[VERSION_LINE, COLUMN_LINE]), 0);
    let many = [VERSION_LINE, "##", "###", VERSION_LINE, "##\t\r", COLUMN_LINE];
    assert_accepted(REFERENCE, &lines(&many), 0);
    for tenth in [&b" "[..], b"#", b"\r", b"\0\xff", b","] {
        let column = [COLUMN_LINE.replace("sample", "").as_bytes(), tenth].concat();
        let text = all_lines([VERSION_LINE.as_bytes().to_vec(), column]);
        assert_accepted(REFERENCE, &text, 0);
    }
    assert_accepted(REFERENCE, &raw([]), 0);
}
