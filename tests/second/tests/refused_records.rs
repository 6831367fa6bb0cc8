//! Rows 6 to 15: each wrong record line, alone and behind good ones, in list 1 and in list 2. Rows 20 to 23, which are on ALT, stand in
//! refused_alts.rs.

mod common;

use common::lists::{line, raw, FIRST_RECORD};
use common::refused::{assert_accepted, assert_refused};

const REFERENCE: &str = "GCATATG";

fn assert_line_refused(wrong: &str, number: u32) {
    let good = line("2 C T 0/1");
    let texts = [vec![wrong], vec![&good, &good, wrong], vec![&good, wrong, &good, "x"]];
    for (text, before) in texts.into_iter().zip([0, 2, 1]) {
        let text = raw(text.into_iter().map(|line| line.as_bytes().to_vec()));
        assert_refused(REFERENCE, &text, number, FIRST_RECORD + before);
    }
}

fn assert_line_accepted(right: &[u8]) {
    assert_accepted(REFERENCE, &raw([right.to_vec()]), 1);
}

/// The good line with field `number`, counted from 1, replaced.
fn with_field(number: usize, value: &str) -> String {
    let good = line("2 C T 0/1");
    let mut fields: Vec<&str> = good.split('\t').collect();
    fields[number - 1] = value;
    fields.join("\t")
}

#[test]
fn row_6_ten_fields_that_are_not_empty() {
    let good = line("2 C T 0/1");
    for wrong in ["", " ", "\t\t\t\t\t\t\t\t\t", "chr1\t2"] {
        assert_line_refused(wrong, 6);
    }
    assert_line_refused(&good.replace('\t', " "), 6);
    for number in 1..=10 {
        assert_line_refused(&with_field(number, ""), 6);
        assert_line_refused(&with_field(number, "a\tb"), 6);
    }
    for wrong in [format!("{good}\t"), format!("{good}\tx"), format!("\t{good}")] {
        assert_line_refused(&wrong, 6);
    }
}

#[test]
fn row_7_chrom_is_the_callers_name() {
    for wrong in ["chr2", "chr", "chr11", "CHR1", " chr1", "1"] {
        assert_line_refused(&with_field(1, wrong), 7);
    }
}

#[test]
fn row_8_pos_is_decimal_from_1_to_65535() {
    let long = "1".repeat(900);
    let zeros = "0".repeat(900);
    for wrong in ["0", "00", "01", "02", "+2", "-2", "2 ", " 2", "2.0", "x", "0x2", "65536"] {
        assert_line_refused(&with_field(2, wrong), 8);
    }
    for wrong in ["99999", "100000", "4294967298", "18446744073709551618", &long, &zeros] {
        assert_line_refused(&with_field(2, wrong), 8);
    }
}

#[test]
fn row_9_ref_is_bases() {
    for wrong in ["u", "X", ".", "C,A", "CR", "cr", "cu", "*", "<DEL>", "C ", "c "] {
        assert_line_refused(&with_field(4, wrong), 9);
    }
}

#[test]
fn row_11_format_begins_with_gt() {
    for wrong in ["DP", "gt", "G", "GTX", "DP:GT", "GT;DP", " GT"] {
        assert_line_refused(&with_field(9, wrong), 11);
    }
}

#[test]
fn row_11_genotype_is_two_digits_of_known_alleles() {
    for wrong in [
        "0", "1", "0/", "/1", "0/1/1", "01", "0\\1", "./.", "./1", "0/.", "0/2", "2/0", "9|9",
        "00/1", "0/01", "0/1 ", " 0/1", ":0/1", "0/:1", "0-1", "A/1",
    ] {
        assert_line_refused(&with_field(10, wrong), 11);
    }
    assert_line_refused(&line("2 C T,G 0/3"), 11);
    assert_line_refused(&line("2 C T,G 3|1"), 11);
}

#[test]
fn row_12_genotype_is_not_0_0() {
    for wrong in ["0/0", "0|0", "0/0:1/1", "0|0:"] {
        assert_line_refused(&with_field(10, wrong), 12);
    }
    assert_line_refused(&line("2 C T,G 0/0"), 12);
}

#[test]
fn row_13_ref_stands_in_the_reference() {
    for wrong in ["2 A T 0/1", "2 CT T 0/1", "2 N T 0/1", "7 GG T 0/1", "7 GA G 1/1", "2 a t 0/1"] {
        assert_line_refused(&line(wrong), 13);
    }
    for wrong in ["8 G T 0/1", "9 A T 0/1", "65535 C T 1/1", "2 CATATGG C 1/1"] {
        assert_line_refused(&line(wrong), 13);
    }
}

#[test]
fn row_14_pos_does_not_fall() {
    let texts = [["3 A T 0/1", "2 C T 0/1"], ["7 G T 0/1", "1 G T 0/1"]];
    for records in texts {
        let text = raw(records.map(|record| line(record).into_bytes()));
        assert_refused(REFERENCE, &text, 14, FIRST_RECORD + 1);
    }
    let equal = ["2 C T 0/1", "2 C T 0/1", "2 CA C 1/1"];
    let equal = raw(equal.map(|record| line(record).into_bytes()));
    assert_accepted(REFERENCE, &equal, 3);
}

#[test]
fn row_15_a_513th_record() {
    let records = |count| raw(vec![line("2 C T 0/1").into_bytes(); count]);
    assert_accepted(REFERENCE, &records(512), 512);
    assert_refused(REFERENCE, &records(513), 15, FIRST_RECORD + 512);
    assert_refused(REFERENCE, &records(600), 15, FIRST_RECORD + 512);
}

#[test]
fn what_no_row_names_is_taken() {
    for right in ["2 C T 0|1", "2 C T 1/0", "2 C T 1|1", "2 C T,G 0/1", "2 C T,G 2/1"] {
        assert_line_accepted(line(right).as_bytes());
    }
    for right in ["1 G GCATATG 1/1", "1 GCATATG G 1/1", "7 G N 0/1", "2 C T 0/1:0/0"] {
        assert_line_accepted(line(right).as_bytes());
    }
    for (number, value) in [(9, "GT:"), (9, "GT:DP"), (9, "GT::"), (10, "0/1:"), (10, "1|0:,/:#")] {
        assert_line_accepted(with_field(number, value).as_bytes());
    }
    let line = line("2 C T 0/1");
    for carried in ["id", "9", "PASS", "DP=3"] {
        for value in [&b"."[..], b"#", b",", b" ", b"\r", b"\0", b"\xff\x80"] {
            let (before, after) = line.split_once(&format!("\t{carried}\t")).expect("carried");
            let parts = [before.as_bytes(), b"\t", value, b"\t", after.as_bytes()];
            assert_line_accepted(&parts.concat());
        }
    }
    assert_line_accepted(&[line.as_bytes(), b":\xff\r\0 "].concat());
}
