//! `full_card SHAPE FILE [lower|mixed]` writes to FILE a case for the driver, on a full card: 65,535 bases and a list
//! of 512 records, or of as many as a text holds. The entry asked for is none of them, so that all is
//! judged and nothing shown. Prints the number of bytes of the text, of records and of bases.
//!
//! The shapes: `short` records, records with long `carried` fields, records with long `alleles`, and
//! records with the `longest` alleles, of which a text holds fewer. With `lower` the same card has all its bases in lower case, with
//! `mixed` the reference alone, by stretches.

use second::drawn::cased::Cased;
use second::drawn::list::{fill_line, Fields, ALT, REF};
use second::drawn::lists::{raw, NAME};
use second::drawn::random::Random;
use second::drive::case::{Call, Case};
use second::drive::frame::Frames;
use std::process::ExitCode;

const BASES: usize = 65_535;
const RECORDS: usize = 512;
const APART: usize = BASES / RECORDS;
const TEXT_MOST: usize = 65_536;

/// The longest line of which 512 fit into a text beside the header.
const LONGEST_LINE: usize = 126;

fn main() -> ExitCode {
    let mut arguments: Vec<String> = std::env::args().skip(1).collect();
    let cased = Cased::taken(&mut arguments);
    let card = match &arguments[..] {
        [shape, _] => full_card(shape, cased),
        _ => None,
    };
    let Some((reference, text)) = card else {
        eprintln!("usage: full_card short|carried|alleles|longest FILE [lower|mixed]");
        return ExitCode::from(2);
    };
    let records = second::read(&reference, NAME, 1, &text).expect("accepted").records.len();
    let sizes = format!("{} {records} {}", text.len(), reference.len());
    let case = Case::new(&reference, NAME, Call::Allele { text, entry: usize::MAX, allele: 0 });
    if let Err(error) = std::fs::write(&arguments[1], Frames::default().frame(&case)) {
        eprintln!("full_card: {}: {error}", arguments[1]);
        return ExitCode::FAILURE;
    }
    println!("{sizes}");
    ExitCode::SUCCESS
}

/// A reference and the text of a list.
fn full_card(shape: &str, cased: Cased) -> Option<(Vec<u8>, Vec<u8>)> {
    let mut random = Random::new(1);
    let mut reference: Vec<u8> = (0..BASES).map(|_| *random.pick(b"ACGT")).collect();
    let (ref_length, line_length) = match shape {
        "short" => (1, 0),
        "carried" => (1, LONGEST_LINE),
        "alleles" => (26, LONGEST_LINE),
        "longest" => (64, 0),
        _ => return None,
    };
    let mut left = TEXT_MOST - raw([]).len();
    let record = |number: usize| {
        let start = number * APART;
        let mut fields = fields(start + 1, &reference[start..start + ref_length]);
        fill_line(&mut fields, line_length);
        cased.alleles(&mut fields[REF]);
        cased.alleles(&mut fields[ALT]);
        let line = fields.join(&b'\t');
        left = left.checked_sub(line.len() + 1)?;
        Some(line)
    };
    let text = raw((0..RECORDS).map_while(record));
    cased.reference(&mut reference);
    Some((reference, text))
}

/// The alleles have one length and differ in their last bases only, so that comparing costs the most.
fn fields(pos: usize, reference: &[u8]) -> Fields {
    let (last, same) = reference.split_last().expect("a base");
    let others = b"ACG".iter().filter(|base| *base != last).take(2);
    let alts: Vec<Vec<u8>> = others.map(|base| [same, &[*base]].concat()).collect();
    let (pos, alts) = (pos.to_string(), alts.join(&b','));
    let fields = [NAME, pos.as_bytes(), b".", reference, &alts, b".", b".", b".", b"GT", b"1|2"];
    fields.map(<[u8]>::to_vec).to_vec()
}
