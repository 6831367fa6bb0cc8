//! `outside SEED FOLDER [masked]` draws a list for a program from outside to normalise, and writes to FOLDER reference.txt,
//! first.vcf, and reference.fa, the same bases in that program's form.
//!
//! The reference has no N. It is made of repeats of units of 1 to 6 bases, up to 520 bases long, with other bases
//! between; with an odd seed it begins with a repeat. The records, each with an ID of its own, have one or two ALTs
//! and stand anywhere in a repeat, so that their normal form is up to some 500 places to the left. With `masked` stretches of the reference are
//! in lower case, and each record writes its alleles as they are there, in upper case, in lower case, or in any.

use second::drawn::lists::contig_text;
use second::drawn::masked::{mask_entry, stretches, write};
use second::drawn::random::Random;
use second::drawn::world::random_copies;
use second::Entry;
use std::ops::Range;
use std::path::Path;
use std::process::ExitCode;

const RECORDS: usize = 500;
const BASES_MOST: usize = 60_000;
const REPEAT_MOST: usize = 520;
const UNIT_MOST: usize = 6;
const ALLELE_MOST: usize = 64;

/// A repeat in the reference and the length of its unit.
struct Repeat {
    places: Range<usize>,
    unit: usize,
}

fn main() -> ExitCode {
    let arguments: Vec<String> = std::env::args().skip(1).collect();
    let (seed, folder, is_masked) = match &arguments[..] {
        [seed, folder] => (seed, folder, false),
        [seed, folder, word] if word == "masked" => (seed, folder, true),
        _ => {
            eprintln!("usage: outside SEED FOLDER [masked]");
            return ExitCode::from(2);
        }
    };
    let seed: u64 = seed.parse().expect("a number");
    let random = &mut Random::new(seed);
    let (mut reference, repeats) = reference(random, seed % 2 == 1);
    let mut entries: Vec<Entry> =
        (0..RECORDS).map(|_| entry(random, &reference, &repeats)).collect();
    entries.sort_by_key(|entry| entry.pos);
    if is_masked {
        let mask = stretches(random, reference.len());
        entries.iter_mut().for_each(|entry| mask_entry(random, entry, &mask));
        write(&mut reference, |place| mask[place]);
    }
    let folder = Path::new(folder);
    let bases = String::from_utf8(reference.clone()).expect("bases");
    let files = [
        ("reference.txt", format!("{bases}\n").into_bytes()),
        ("reference.fa", format!(">chr1\n{bases}\n").into_bytes()),
        ("first.vcf", contig_text(&entries, reference.len())),
    ];
    for (name, bytes) in files {
        std::fs::write(folder.join(name), bytes).expect("a file is written");
    }
    ExitCode::SUCCESS
}

fn any_bases(random: &mut Random, count: usize) -> Vec<u8> {
    (0..count).map(|_| *random.pick(b"ACGT")).collect()
}

fn reference(random: &mut Random, begins_with_repeat: bool) -> (Vec<u8>, Vec<Repeat>) {
    let (mut bases, mut repeats) = (Vec::new(), Vec::new());
    if !begins_with_repeat {
        bases.extend(any_bases(random, 20));
    }
    while bases.len() < BASES_MOST {
        let (start, unit) = (bases.len(), random.between(1, UNIT_MOST));
        let length = *random.pick(&[10, 40, 150, REPEAT_MOST]);
        let length = random.between(2 * UNIT_MOST, length.max(2 * UNIT_MOST));
        bases.extend(any_bases(random, unit).iter().cycle().take(length));
        repeats.push(Repeat { places: start..bases.len(), unit });
        let between = random.between(1, 40);
        bases.extend(any_bases(random, between));
    }
    (bases, repeats)
}

/// Units of a repeat taken away or added, mostly; else any bases for others.
fn entry(random: &mut Random, reference: &[u8], repeats: &[Repeat]) -> Entry {
    loop {
        // The first repeat often: what stands there can come to POS 1.
        let repeat = match random.below(6) {
            0 => &repeats[0],
            1..=3 => longest(random, repeats),
            _ => random.pick(repeats),
        };
        let entry = entry_in(random, reference, repeat);
        let alleles: Vec<&[u8]> = entry.alleles().collect();
        let differ = (1..alleles.len()).all(|number| !alleles[..number].contains(&alleles[number]));
        if differ && alleles.iter().all(|allele| (1..=ALLELE_MOST).contains(&allele.len())) {
            return entry;
        }
    }
}

/// The longest of a few.
fn longest<'a>(random: &mut Random, repeats: &'a [Repeat]) -> &'a Repeat {
    let few = (0..4).map(|_| random.pick(repeats));
    few.max_by_key(|repeat| repeat.places.len()).expect("four")
}

fn entry_in(random: &mut Random, reference: &[u8], repeat: &Repeat) -> Entry {
    let Repeat { places, unit } = repeat;
    let bases = unit * random.between(1, 3);
    let start = random.between(places.start, places.end - 1);
    let end = (start + bases).min(places.end);
    // One base, or a few, before and behind what changes: with none, an allele may be empty.
    let from = start.saturating_sub(*random.pick(&[0, 1, 1, 2, 5]));
    let to = (end + *random.pick(&[0, 0, 1, 4])).min(reference.len());
    let around = |middle: &[u8]| [&reference[from..start], middle, &reference[end..to]].concat();
    let replaced = &reference[start..end];
    let (any, count) = (any_bases(random, 4), random.between(1, 4));
    let ways = [
        around(b""),
        around(&[replaced, replaced].concat()),
        around(&replaced[..replaced.len() / unit / 2 * unit]),
        around(&any[..count]),
    ];
    let mut alts = vec![random.pick(&ways).clone()];
    if random.once_in(3) {
        alts.push(random.pick(&ways).clone());
    }
    let copies = random_copies(random, alts.len());
    Entry { pos: from + 1, reference: reference[from..to].to_vec(), alts, copies }
}
