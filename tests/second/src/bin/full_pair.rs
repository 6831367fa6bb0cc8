//! `full_pair FOLDER all|none|TENTH|snvs [twelve] [lower|mixed]` writes to FOLDER two lists on 65,535 bases, as reference.txt, first.vcf, second.vcf, and
//! reference.fa, the same bases in bcftools' form. Prints how many entries and clusters they have.
//!
//! The bases have 450 repeats, evenly over them, with drawn bases between. At each stands a cluster of 1 to 4 entries, mostly two, one
//! in each list: the same change in two places of the repeat, or in one. TENTH, 0 to 9, takes those clusters only whose number ends
//! so, `none` takes none. With `twelve` there is one cluster more, of twelve entries, no two of which overlap.
//!
//! `snvs` takes none of them, and puts as many substitutions of one base into each list as it can have, 512, evenly over the bases: the
//! same in both, so that each pair is a cluster.
//!
//! With `lower` all bases of the same card are in lower case, with `mixed` those of the reference alone, by stretches.

use second::clusters::clusters;
use second::drawn::cased::Cased;
use second::drawn::lists::{all_lines, contig_header};
use second::drawn::random::Random;
use second::list::RECORDS_MOST;
use second::Entry;
use std::path::Path;
use std::process::ExitCode;

const BASES: usize = 65_535;
const CLUSTERS: usize = 450;

/// From one cluster to the next; room is left for one more, which is the twelve's.
const APART: usize = BASES / (CLUSTERS + 1);

/// Each tenth of the clusters has each of these sizes as often.
const SIZES: [usize; 10] = [2, 2, 1, 2, 2, 3, 2, 2, 4, 2];

/// The entries of the twelve are so many bases apart, fewer than the first of them inserts.
const STEP: usize = 5;
const TWELVE: usize = 12;

fn main() -> ExitCode {
    let mut arguments: Vec<String> = std::env::args().skip(1).collect();
    let cased = Cased::taken(&mut arguments);
    let words: Vec<&str> = arguments.iter().map(String::as_str).collect();
    let (folder, part, with_twelve) = match words[..] {
        [folder, part] => (folder, part, false),
        [folder, part, "twelve"] => (folder, part, true),
        _ => {
            eprintln!("usage: full_pair FOLDER all|none|TENTH|snvs [twelve] [lower|mixed]");
            return ExitCode::from(2);
        }
    };
    let random = &mut Random::new(1);
    let mut reference: Vec<u8> = (0..BASES).map(|_| *random.pick(b"ACGT")).collect();
    let mut lists = [Vec::new(), Vec::new()];
    let mut expected = usize::from(with_twelve);
    for number in 0..CLUSTERS {
        let size = SIZES[(number / 10 + number % 10) % 10];
        let drawn = cluster(random, &mut reference, number * APART, size);
        if part == "all" || part.parse() == Ok(number % 10) {
            expected += 1;
            add(&mut lists, drawn);
        }
    }
    if part == "snvs" {
        let snv = |number| substitution(&reference, number * (BASES / RECORDS_MOST), 1);
        let snvs: Vec<Entry> = (0..RECORDS_MOST).map(snv).collect();
        expected += snvs.len();
        add(&mut lists, [snvs.clone(), snvs]);
    }
    if with_twelve {
        add(&mut lists, twelve(&reference));
    }
    let found = clusters(&reference, lists.each_ref().map(Vec::as_slice));
    assert_eq!(found.len(), expected, "each cluster is one");
    cased.reference(&mut reference);
    lists.iter_mut().for_each(|list| cased.entries(list));
    let files = [
        ("reference.txt", [&reference[..], b"\n"].concat()),
        ("reference.fa", [b">chr1\n", &reference[..], b"\n"].concat()),
        ("first.vcf", text(&lists[0])),
        ("second.vcf", text(&lists[1])),
    ];
    for (name, bytes) in files {
        std::fs::write(Path::new(folder).join(name), bytes).expect("a file is written");
    }
    println!("{} {}", lists[0].len() + lists[1].len(), found.len());
    ExitCode::SUCCESS
}

fn add(lists: &mut [Vec<Entry>; 2], cluster: [Vec<Entry>; 2]) {
    for (list, entries) in lists.iter_mut().zip(cluster) {
        list.extend(entries);
        list.sort_by_key(|entry| entry.pos);
    }
}

/// Puts a repeat into the reference, some places behind `start`, and returns the entries there.
fn cluster(
    random: &mut Random,
    reference: &mut [u8],
    start: usize,
    size: usize,
) -> [Vec<Entry>; 2] {
    let (unit, copies) = (random.between(1, 4), random.between(4, 8));
    let first = start + random.between(5, 20);
    let behind = first + unit * copies;
    for place in first + unit..behind {
        reference[place] = reference[place - unit];
    }
    let bases = &reference[..];
    let genotype = *random.pick(&[[1, 1], [1, 1], [0, 1], [1, 0]]);
    let other_genotype = if random.once_in(2) { genotype } else { [genotype[1], genotype[0]] };
    let one = |entry: Entry, copies| Entry { copies, ..entry };
    let deletion = |place| replaced(bases, place - 1..place + unit, &bases[place - 1..place]);
    let insertion =
        |place: usize| replaced(bases, place - 1..place, &bases[place - 1..place + unit]);
    let (at_start, at_end) = match random.once_in(2) {
        true => (deletion(first), deletion(behind - unit)),
        false => (insertion(first), insertion(behind - unit)),
    };
    let mut lists = match size {
        1 => [vec![one(at_start, genotype)], vec![]],
        2 if random.once_in(3) => {
            let entry = substitution(bases, behind, 1);
            [vec![one(entry.clone(), genotype)], vec![one(entry, other_genotype)]]
        }
        2 => [vec![one(at_start, genotype)], vec![one(at_end, other_genotype)]],
        3 => {
            let halves = [substitution(bases, behind, 1), substitution(bases, behind + 1, 1)];
            let halves = halves.map(|half| one(half, genotype)).to_vec();
            [vec![one(substitution(bases, behind, 2), genotype)], halves]
        }
        _ => [at_start, at_end]
            .map(|entry| vec![one(entry, genotype), substitution(bases, behind, 1)]),
    };
    if random.once_in(2) {
        lists.reverse();
    }
    lists
}

/// An insertion and eleven substitutions, one list's and the other's in turn.
fn twelve(reference: &[u8]) -> [Vec<Entry>; 2] {
    let start = CLUSTERS * APART + STEP;
    let mut lists = [Vec::new(), Vec::new()];
    for number in 0..TWELVE {
        let place = start + number * STEP;
        let entry = match number {
            0 => replaced(reference, place..place + 1, &reference[place..=place + STEP]),
            _ => substitution(reference, place, 1),
        };
        lists[number % 2].push(entry);
    }
    lists
}

/// Each of so many bases becomes another.
fn substitution(reference: &[u8], start: usize, length: usize) -> Entry {
    let other = |base: &u8| if *base == b'A' { b'C' } else { b'A' };
    let span = start..start + length;
    let alt: Vec<u8> = reference[span.clone()].iter().map(other).collect();
    replaced(reference, span, &alt)
}

fn replaced(reference: &[u8], span: std::ops::Range<usize>, alt: &[u8]) -> Entry {
    let (pos, reference) = (span.start + 1, reference[span].to_vec());
    Entry { pos, reference, alts: vec![alt.to_vec()], copies: [1, 1] }
}

fn text(entries: &[Entry]) -> Vec<u8> {
    let record = |entry: &Entry| {
        let [left, right] = entry.copies;
        let pos = entry.pos.to_string().into_bytes();
        let genotype = format!("{left}/{right}").into_bytes();
        let (reference, alt) = (entry.reference.clone(), entry.alts[0].clone());
        let carried = || b".".to_vec();
        let fields = [b"chr1".to_vec(), pos, carried(), reference, alt];
        let more = [carried(), carried(), carried(), b"GT".to_vec(), genotype];
        [fields, more].concat().join(&b'\t')
    };
    all_lines(contig_header(BASES).into_iter().chain(entries.iter().map(record)))
}
