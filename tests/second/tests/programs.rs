//! What the programs print, and the files they read.

mod common;

use common::calls::Case;
use common::lists::{raw, text, NAME};
use std::path::PathBuf;
use std::process::Command;

#[test]
fn entries_stand_in_merged_order_with_pos_as_read() {
    let mut first = vec!["2 A C 0/1"];
    first.extend(["10 A C 1/1"; 13]);
    let case = Case::new("GACGTTGCGAT", &first, &["1 GA GC 1/0", "2 A T 1/1", "11 T G 1/1"]);
    let mut expected = String::from("list\tPOS\tcluster\tmark\n");
    expected += "2\t1\t0\t+\n1\t2\t0\t-\n2\t2\t0\t0\n";
    expected += &"1\t10\t1\t?\n".repeat(13);
    expected += "2\t11\t2\t0\n";
    expected += "total\t2\t2\t13\t2\n";
    assert_eq!(case.printed(), expected);
    let printed = second::counts(b"GACGTTGCGAT\n", NAME, &case.first, &case.second);
    assert_eq!(printed, b"1\t0\t13\t1\t2\t0\n");
}

#[test]
fn a_refusal_is_the_only_line() {
    let good = text(&["2 C T 0/1"]);
    let bad = text(&["2 C T 0/1", "1 G T 0/0"]);
    assert_eq!(second::compare(b"GCA\n", NAME, &good, &bad), b"refused\t12\t2\t4\t0\n");
    assert_eq!(second::compare(b"GCA\n", NAME, &bad, &good), b"refused\t12\t1\t4\t0\n");
    assert_eq!(second::compare(b"GCA\n", NAME, b"", b""), b"refused\t3\t1\t0\t0\n");
    assert_eq!(second::counts(b"GCA\n", NAME, &good, &bad), b"refused\t12\t2\t4\t0\n");
    assert_eq!(second::normalise(b"GCA\n", NAME, &bad), b"refused\t12\t1\t4\t0\n");
}

#[test]
fn a_refusal_of_an_allele_ends_in_its_place() {
    let good = text(&["2 C T 0/1"]);
    for (alt, told) in [("T,", "20\t1\t4\t14"), ("u,T", "21\t1\t4\t12"), ("TT,TT", "23\t1\t4\t15")]
    {
        let bad = text(&["2 C T 0/1", &format!("2 C {alt} 0/1")]);
        let line = format!("refused\t{told}\n").into_bytes();
        assert_eq!(second::compare(b"GCA\n", NAME, &bad, &good), line);
        assert_eq!(second::counts(b"GCA\n", NAME, &bad, &bad), line);
        assert_eq!(second::normalise(b"GCA\n", NAME, &bad), line);
        let of_list_2 = String::from_utf8(line).expect("ASCII").replace("\t1\t4", "\t2\t4");
        assert_eq!(second::compare(b"GCA\n", NAME, &good, &bad), of_list_2.as_bytes());
    }
}

/// A list of one record, which has this name.
fn named(name: &[u8], record: &str) -> Vec<u8> {
    let fields: Vec<&str> = record.split(' ').collect();
    let [pos, reference, alt, genotype] = fields[..] else { panic!("POS REF ALT GT") };
    let others = format!("\t{pos}\t.\t{reference}\t{alt}\t.\t.\t.\tGT\t{genotype}");
    raw([[name, others.as_bytes()].concat()])
}

#[test]
fn the_name_given_is_what_chrom_has_to_be() {
    let (longest, long) = ([b'y'; 1_001], [b'y'; 1_025]);
    for name in [&b"chr1"[..], b"chr2", b"X", b"chr1 ", b"-\xff\0", &longest] {
        let [first, second] = ["2 CAT C 1/1", "4 TAT T 1/1"].map(|record| named(name, record));
        let printed = |name| {
            let compared = second::compare(b"GCATATG\n", name, &first, &second);
            let counted = second::counts(b"GCATATG\n", name, &first, &second);
            [compared, counted, second::normalise(b"GCATATG\n", name, &second)]
        };
        let table = b"list\tPOS\tcluster\tmark\n1\t2\t0\t+\n2\t4\t0\t+\ntotal\t2\t0\t0\t2\n";
        assert_eq!(printed(name), [&table[..], b"1\t0\t0\t1\t0\t0\n", &first]);
        for other in [&b""[..], b"chr", b"chr11", b"x", &longest[1..], &long] {
            assert_eq!(printed(other), [b"refused\t7\t1\t3\t0\n"; 3]);
        }
    }
    let empty = text(&[]);
    for name in [&b""[..], b"chr2", &long] {
        let counted = second::counts(b"GCATATG\n", name, &empty, &empty);
        assert_eq!(counted, b"0\t0\t0\t0\t0\t0\n", "a name is judged by the records alone");
    }
}

/// A new directory with some of the three files.
fn directory(name: &str, files: &[(&str, &[u8])]) -> PathBuf {
    let directory = std::env::temp_dir().join(format!("second-{}-{name}", std::process::id()));
    std::fs::create_dir_all(&directory).expect("a new directory");
    for (file, bytes) in files {
        std::fs::write(directory.join(file), bytes).expect("a file");
    }
    directory
}

fn printed(program: &str, directory: &PathBuf) -> String {
    printed_for(program, directory, None)
}

fn printed_for(program: &str, directory: &PathBuf, name: Option<&str>) -> String {
    let mut command = Command::new(env!("CARGO_BIN_EXE_second"));
    let output = command.arg(program).arg(directory).args(name).output().expect("it runs");
    assert!(output.status.success());
    String::from_utf8(output.stdout).expect("ASCII")
}

#[test]
fn the_binary_reads_the_files_of_a_directory() {
    let (first, second) = (text(&["2 CAT C 1/1"]), text(&["4 TAT T 1/1"]));
    let files: [(&str, &[u8]); 3] =
        [("reference.txt", b"GCATATG\n"), ("first.vcf", &first), ("second.vcf", &second)];
    let all = directory("all", &files);
    let table = "list\tPOS\tcluster\tmark\n1\t2\t0\t+\n2\t4\t0\t+\ntotal\t2\t0\t0\t2\n";
    assert_eq!(printed("compare", &all), table);
    assert_eq!(printed("normalise", &all).as_bytes(), first);
    assert_eq!(printed("counts", &all), "1\t0\t0\t1\t0\t0\n");
    assert_eq!(printed("lot_report", &all), "refused\t3\t0\t0\t0\n");
    for program in ["compare", "counts", "normalise"] {
        assert_eq!(printed_for(program, &all, Some("chr1")), printed(program, &all));
        for name in ["", "chr2"] {
            assert_eq!(printed_for(program, &all, Some(name)), "refused\t7\t1\t3\t0\n");
        }
    }
    let no_second = directory("no-second", &files[..2]);
    assert_eq!(printed("compare", &no_second), "refused\t3\t2\t0\t0\n");
    assert_eq!(printed("counts", &no_second), "refused\t3\t2\t0\t0\n");
    let no_first = directory("no-first", &files[..1]);
    assert_eq!(printed("normalise", &no_first), "refused\t3\t1\t0\t0\n");
    let none = directory("none", &[]);
    assert_eq!(printed("compare", &none), "refused\t1\t0\t0\t0\n");
    for directory in [all, no_second, no_first, none] {
        std::fs::remove_dir_all(directory).expect("removed");
    }
}
