//! What program lot_report reads and prints, and program counts beside compare.

mod common;

use common::calls::Case;
use common::lists::NAME;
use common::random::Random;
use common::seen::Seen;
use common::world::World;
use second::drive::draw::runs::runs_file;

const READ: &str = "run\ttruth_matched\ttruth_unmatched\ttruth_undecided\tcalled_matched\tcalled_unmatched\tcalled_undecided\n";
const PRINTED: &str = "run\ttruth\ttruth_matched\ttruth_undecided\tcalled\tcalled_matched\tcalled_undecided\trecall\trecall_ppm\trecall_percent\tprecision\tprecision_ppm\tprecision_percent\n";

/// What is printed for the runs, a space for each TAB.
fn printed(runs: &[&str]) -> String {
    let lines: String = runs.iter().map(|run| run.replace(' ', "\t") + "\n").collect();
    String::from_utf8(second::lot_report((READ.to_string() + &lines).as_bytes())).expect("ASCII")
}

fn refused(number: u32, line: u32) -> String {
    format!("refused\t{number}\t0\t{line}\t0\n")
}

#[test]
fn a_table_by_hand() {
    let table = [
        "a 8 5 2 4 4 0 5/6 833333 83.3333 4/4 1000000 100.0000",
        "b 13 0 13 7 3 0 none none none 3/7 428571 42.8571",
        "c 500 1 20 0 0 0 1/480 2083 0.2083 none none none",
        "lot 521 6 35 11 7 0 6/486 12345 1.2345 7/11 636363 63.6363",
    ];
    let table: String = table.iter().map(|line| line.replace(' ', "\t") + "\n").collect();
    let runs = ["a 5 1 2 4 0 0", "b 0 0 13 3 4 0", "c 1 479 20 0 0 0"];
    assert_eq!(printed(&runs), PRINTED.to_string() + &table);
}

#[test]
fn percentages_have_four_digits_behind_the_point() {
    for (counts, expected) in [
        ("0 512 0", "0/512\t0\t0.0000"),
        ("1 511 0", "1/512\t1953\t0.1953"),
        ("511 1 0", "511/512\t998046\t99.8046"),
        ("1 9 0", "1/10\t100000\t10.0000"),
        ("1 99 0", "1/100\t10000\t1.0000"),
        ("1 2 509", "1/3\t333333\t33.3333"),
    ] {
        let last = printed(&[&format!("x {counts} 0 0 0")]);
        assert!(last.ends_with(&format!("\t{expected}\tnone\tnone\tnone\n")), "{last}");
    }
    // The least share above zero that a lot can have.
    let mut runs = vec!["x 0 512 0 0 0 0"; 255];
    runs.push("x 1 511 0 0 0 0");
    assert!(printed(&runs).ends_with("\t1/131072\t7\t0.0007\tnone\tnone\tnone\n"));
}

#[test]
fn row_3_the_text() {
    let good = READ.to_string() + "a\t1\t0\t0\t1\t0\t0\n";
    for wrong in ["", READ.trim_end(), good.trim_end(), &(good.clone() + "b")] {
        assert_eq!(second::lot_report(wrong.as_bytes()), refused(3, 0).into_bytes());
    }
    let sized = |size: usize| {
        let name = "n".repeat(size + 1 - good.len());
        READ.to_string() + &name + "\t1\t0\t0\t1\t0\t0\n"
    };
    let longest = second::lot_report(sized(65_536).as_bytes());
    assert!(longest.starts_with(PRINTED.as_bytes()));
    assert_eq!(second::lot_report(sized(65_537).as_bytes()), refused(3, 0).into_bytes());
}

#[test]
fn row_5_the_heading() {
    let run = "a\t1\t0\t0\t1\t0\t0\n";
    let changed = [
        READ.replace("called_matched", "called_Matched"),
        READ.replace('\t', " "),
        READ.replace('\n', "\r\n"),
        READ.replace('\n', "\t\n"),
        READ.replace("run\t", ""),
        format!("#{READ}"),
        format!("\n{READ}"),
        String::new(),
    ];
    for heading in changed {
        assert_eq!(second::lot_report((heading + run).as_bytes()), refused(5, 1).into_bytes());
    }
}

#[test]
fn row_6_a_line_that_is_not_a_run() {
    for wrong in [
        "b 1 0 0 1 0",
        "b 1 0 0 1 0 0 0",
        "b 1 0 0 1 0 0 ",
        " 1 0 0 1 0 0",
        "b 1 0 0 1 0 ",
        "b 01 0 0 1 0 0",
        "b 1 0 0 1 0 00",
        "b 1 -1 0 1 0 0",
        "b 1 +1 0 1 0 0",
        "b 1 0x1 0 1 0 0",
        "b 1 0 0 1 0 0\r",
        "b 1 / 0 1 0 0",
        "b 1 : 0 1 0 0",
        "",
        "b",
        &READ.trim_end().replace('\t', " "),
    ] {
        let good = "a 1 0 0 1 0 0";
        assert_eq!(printed(&[wrong]), refused(6, 2), "{wrong}");
        assert_eq!(printed(&[good, wrong, wrong]), refused(6, 3), "{wrong}");
        let mut many = vec!["a 513 0 0 0 0 0"; 300];
        many.push(wrong);
        assert_eq!(printed(&many), refused(6, 302), "{wrong}");
    }
}

#[test]
fn rows_30_and_31_behind_the_layout() {
    assert_eq!(printed(&[]), refused(30, 0));
    assert_eq!(printed(&["a 513 0 0 0 0 0"; 257]), refused(30, 0));
    for large in
        ["513", "4294967295", "4294967296", "4294967297", "18446744073709551617", &"9".repeat(60)]
    {
        assert_eq!(printed(&[&format!("a 0 0 0 0 {large} 0")]), refused(31, 0), "{large}");
    }
    assert!(printed(&["a 0 0 0 0 512 0"; 256]).starts_with(PRINTED));
}

#[test]
fn any_byte_but_tab_and_lf_may_stand_in_a_name() {
    for name in (0..=u8::MAX).filter(|byte| !b"\t\n".contains(byte)) {
        let file = [READ.as_bytes(), &[name], b"\t1\t1\t0\t0\t0\t0\n"].concat();
        let (line, lot) = (&[name][..], b"lot");
        let numbers = b"\t2\t1\t0\t0\t0\t0\t1/2\t500000\t50.0000\tnone\tnone\tnone\n";
        let table = [PRINTED.as_bytes(), line, numbers, lot, numbers].concat();
        assert_eq!(second::lot_report(&file), table);
    }
}

#[test]
fn drawn_files_come_upon_every_answer() {
    let mut seen = Seen::default();
    for number in 0..3_000 {
        let file = runs_file(1, number);
        let printed = second::lot_report(file.as_deref().unwrap_or_default());
        let text = String::from_utf8_lossy(&printed);
        let starts = |start: &str| text.starts_with(start);
        let size = file.as_ref().map_or(0, Vec::len);
        let lines = text.lines().count();
        seen.note("accepted", starts("run\t"));
        seen.note("missing", file.is_none());
        seen.note("the longest text", starts("run\t") && size == 65_536);
        seen.note("one byte more", starts("refused\t3\t") && size == 65_537);
        seen.note("256 runs", starts("run\t") && lines == 258);
        seen.note("none for the lot", text.ends_with("none\n"));
        seen.note("3", starts("refused\t3\t0\t0\t0\n"));
        seen.note("5", starts("refused\t5\t0\t1\t0\n"));
        seen.note("6", starts("refused\t6\t0\t") && text.ends_with("\t0\n"));
        seen.note("6 behind line 257", starts("refused\t6\t0\t2") && lines == 1 && size > 3_000);
        seen.note("30", starts("refused\t30\t0\t0\t0\n"));
        seen.note("31", starts("refused\t31\t0\t0\t0\n"));
    }
    seen.assert_each(4);
}

#[test]
fn counts_of_both_lists_add_up_to_the_totals_of_compare() {
    let mut seen = Seen::default();
    for seed in 910_000..912_000 {
        let case = Case::of(&World::new(&mut Random::new(seed), 9));
        let file = [&case.reference[..], b"\n"].concat();
        let line = second::counts(&file, NAME, &case.first, &case.second);
        let line = String::from_utf8(line).expect("ASCII");
        let numbers: Vec<u32> = line
            .strip_suffix('\n')
            .expect("a line")
            .split('\t')
            .map(|number| number.parse().expect("a number"))
            .collect();
        let [m1, u1, q1, m2, u2, q2] = numbers[..] else { panic!("not six: {line}") };
        let total = format!("\ntotal\t{}\t{}\t{}\t", m1 + m2, u1 + u2, q1 + q2);
        assert!(case.printed().contains(&total));
        let entries =
            |list: &str| case.printed().lines().filter(|line| line.starts_with(list)).count();
        assert_eq!((m1 + u1 + q1) as usize, entries("1\t"));
        assert_eq!((m2 + u2 + q2) as usize, entries("2\t"));
        seen.note("matched in unequal number", m1 != m2);
        seen.note("unmatched", u1 > 0 && u2 > 0);
    }
    seen.assert_each(50);
}
