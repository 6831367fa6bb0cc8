//! A full card: 65,535 bases and 512 entries in each list, in one call.

mod common;

use common::calls::{normal, Case};
use common::lists::{raw, NAME};
use common::random::Random;
use second::drawn::cased::Cased;
use second::Entry;

const BASES: usize = 65_535;
const ENTRIES: usize = 512;
const APART: usize = BASES / ENTRIES;

/// A record line with no byte to spare, as 512 of them have to fit.
fn line(pos: usize, reference: &[u8], alt: &[u8], genotype: &str) -> Vec<u8> {
    let pos = pos.to_string();
    let fields = [b"chr1", pos.as_bytes(), b".", reference, alt, b".", b".", b".", b"GT"];
    [&fields.join(&b'\t')[..], b"\t", genotype.as_bytes()].concat()
}

#[test]
fn every_entry_is_matched_in_another_form() {
    let mut random = Random::new(1);
    let mut reference: Vec<u8> = (0..BASES).map(|_| *random.pick(b"ACGT")).collect();
    let (mut first, mut second) = (Vec::new(), Vec::new());
    for number in 0..ENTRIES {
        // GCATATATG: the deletion of AT at the left end and at the right end of the repeat.
        let start = number * APART + 20;
        reference[start..start + 9].copy_from_slice(b"GCATATATG");
        first.push(line(start + 2, b"CAT", b"C", "1/0"));
        second.push(line(start + 6, b"TAT", b"T", "0/1"));
    }
    let case = Case { reference, first: raw(first), second: raw(second) };
    let pairs: Vec<(u32, u32)> = (0..ENTRIES as u32).map(|number| (2 * number, 2)).collect();
    assert_eq!(case.plan_pairs(), pairs);
    assert_eq!(case.marks(), Ok(("+-".repeat(ENTRIES), 1_024)));
    let written = normal(&case.reference, NAME, &case.second).expect("accepted");
    let genotype_aside = |text: &[u8]| String::from_utf8_lossy(text).replace("1/0", "0/1");
    assert_eq!(genotype_aside(&written), genotype_aside(&case.first));
}

#[test]
fn a_card_is_made_in_lower_case_or_on_a_soft_masked_reference() {
    let words = |last: &str| vec!["all".to_string(), last.to_string()];
    for (last, reference, allele, left) in [
        ("lower", [&[b'a'; 700][..]].concat(), &b"ac"[..], 1),
        ("mixed", [&[b'A'; 300][..], &[b'a'; 300], &[b'A'; 100]].concat(), b"AC", 1),
        ("twelve", vec![b'A'; 700], b"AC", 2),
    ] {
        let mut words = words(last);
        let cased = Cased::taken(&mut words);
        assert_eq!(words.len(), left);
        let mut found = vec![b'A'; 700];
        cased.reference(&mut found);
        assert_eq!(found, reference);
        let (alts, copies) = (vec![b"AC".to_vec(); 2], [1, 1]);
        let mut entries = [Entry { pos: 1, reference: b"AC".to_vec(), alts, copies }];
        cased.entries(&mut entries);
        assert!(entries[0].alleles().all(|one| one == allele));
    }
}

#[test]
fn a_repeat_over_the_whole_card_is_one_cluster() {
    let reference = vec![b'A'; BASES];
    let records = |offset: usize| {
        raw((0..ENTRIES).map(|number| line(number * APART + offset, b"AA", b"A", "1/1")))
    };
    let case = Case { reference, first: records(1), second: records(60) };
    assert_eq!(case.plan_pairs(), [(0, 1_024)]);
    assert_eq!(case.marks(), Ok(("?".repeat(1_024), 0)));
    let written = normal(&case.reference, NAME, &case.second).expect("accepted");
    let shifted = raw((0..ENTRIES).map(|_| line(1, b"AA", b"A", "1/1")));
    assert_eq!(written, shifted, "each is shifted to POS 1");
}

#[test]
fn clusters_of_twelve_are_searched_without_delay() {
    // Insertions and deletions of A in long runs of A: nothing disagrees before the run's end.
    let mut reference = vec![b'A'; BASES];
    let (mut first, mut second) = (Vec::new(), Vec::new());
    let runs = ENTRIES / 6;
    for run in 0..runs {
        let start = run * (BASES / runs);
        reference[start..start + 40].copy_from_slice(&b"CGTAC".repeat(8));
        for entry in 0..6 {
            let place = start + 50 + 10 * entry;
            first.push(line(place, b"AA", b"A", "0/1"));
            second.push(line(place + 5, b"A", b"AA", "1/0"));
        }
    }
    let case = Case { reference, first: raw(first), second: raw(second) };
    let pairs: Vec<(u32, u32)> = (0..runs as u32).map(|run| (12 * run, 12)).collect();
    assert_eq!(case.plan_pairs(), pairs);
    assert_eq!(case.marks(), Ok(("0".repeat(12 * runs), 0)));
}
