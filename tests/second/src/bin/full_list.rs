//! `full_list FOLDER RECORDS [PLACES] [lower|mixed]` writes to FOLDER a list of deletions of one base on 65,535 bases, as reference.txt,
//! first.vcf, and reference.fa, the same bases in bcftools' form.
//!
//! Without PLACES the bases are drawn and the deletions stand evenly over them. With it the bases are a C and one run of
//! A, and each deletion stands so many places behind where its normal form does. With `lower` all bases are in lower case, with `mixed`
//! those of the reference alone, by stretches.

use second::drawn::cased::Cased;
use second::drawn::lists::{all_lines, contig_header};
use second::drawn::random::Random;
use std::path::Path;
use std::process::ExitCode;

const BASES: usize = 65_535;

fn main() -> ExitCode {
    let mut arguments: Vec<String> = std::env::args().skip(1).collect();
    let cased = Cased::taken(&mut arguments);
    let numbers: Vec<usize> =
        arguments.iter().skip(1).filter_map(|number| number.parse().ok()).collect();
    let (mut reference, starts): (_, Vec<usize>) = match numbers[..] {
        [records] => (drawn(), (0..records).map(|record| record * (BASES / records)).collect()),
        [records, places] => (run(), vec![places; records]),
        _ => {
            eprintln!("usage: full_list FOLDER RECORDS [PLACES] [lower|mixed]");
            return ExitCode::from(2);
        }
    };
    let text = text(&reference, &starts, cased);
    cased.reference(&mut reference);
    let folder = Path::new(&arguments[0]);
    let files = [
        ("reference.txt", [&reference[..], b"\n"].concat()),
        ("reference.fa", [b">chr1\n", &reference[..], b"\n"].concat()),
        ("first.vcf", text),
    ];
    for (name, bytes) in files {
        std::fs::write(folder.join(name), bytes).expect("a file is written");
    }
    ExitCode::SUCCESS
}

fn drawn() -> Vec<u8> {
    let mut random = Random::new(1);
    (0..BASES).map(|_| *random.pick(b"ACGT")).collect()
}

fn run() -> Vec<u8> {
    [b"C", &[b'A'; BASES - 1][..]].concat()
}

fn text(reference: &[u8], starts: &[usize], cased: Cased) -> Vec<u8> {
    let record = |start: &usize| {
        let mut bases = [reference[*start], reference[start + 1]];
        cased.alleles(&mut bases);
        let [kept, taken] = bases.map(char::from);
        format!("chr1\t{}\t.\t{kept}{taken}\t{kept}\t.\t.\t.\tGT\t1/1", start + 1).into_bytes()
    };
    all_lines(contig_header(BASES).into_iter().chain(starts.iter().map(record)))
}
