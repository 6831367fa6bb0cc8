//! `outside_pair SEED FOLDER [masked]` draws two lists on one reference for program compare and for bcftools, and writes to FOLDER reference.txt,
//! first.vcf and second.vcf, and reference.fa, the same bases in bcftools' form.
//!
//! The reference has no N. It is made of small worlds, one behind the other, with drawn bases between, so that mostly each world gives a
//! cluster or more; it begins and ends with a world. One world in three is a repeat with one change, which each list writes somewhere in
//! it; in one in four, or more, entries of a list overlap, on opposite copies and on the same one. With `masked` stretches of the
//! reference are in lower case, and each entry writes its alleles as they are there, in upper case, in lower case, or in any.

use second::drawn::lists::contig_text;
use second::drawn::masked::{mask_entry, stretches, write};
use second::drawn::random::Random;
use second::drawn::world::{random_copies, World};
use second::Entry;
use std::path::Path;
use std::process::ExitCode;

/// A list that has so many records gets no more, and stays below the 512 that a list may have.
const RECORDS_ENOUGH: usize = 480;
/// A world's entries, in both lists together.
const ENTRIES_MOST: usize = 8;
const BETWEEN: usize = 40;
const UNIT_MOST: usize = 6;

fn main() -> ExitCode {
    let arguments: Vec<String> = std::env::args().skip(1).collect();
    let (seed, folder, is_masked) = match &arguments[..] {
        [seed, folder] => (seed, folder, false),
        [seed, folder, word] if word == "masked" => (seed, folder, true),
        _ => {
            eprintln!("usage: outside_pair SEED FOLDER [masked]");
            return ExitCode::from(2);
        }
    };
    let random = &mut Random::new(seed.parse().expect("a number"));
    let World { mut reference, mut lists } = joined_worlds(random);
    if is_masked {
        let mask = stretches(random, reference.len());
        lists.iter_mut().flatten().for_each(|entry| mask_entry(random, entry, &mask));
        write(&mut reference, |place| mask[place]);
    }
    let [first, second] = lists;
    let files = [
        ("reference.txt", [&reference[..], b"\n"].concat()),
        ("reference.fa", [b">chr1\n", &reference[..], b"\n"].concat()),
        ("first.vcf", contig_text(&first, reference.len())),
        ("second.vcf", contig_text(&second, reference.len())),
    ];
    for (name, bytes) in files {
        std::fs::write(Path::new(folder).join(name), bytes).expect("a file is written");
    }
    ExitCode::SUCCESS
}

fn joined_worlds(random: &mut Random) -> World {
    let mut joined = World { reference: vec![], lists: [vec![], vec![]] };
    while joined.lists.iter().all(|list| list.len() < RECORDS_ENOUGH) {
        let world = match random.below(12) {
            0..=3 => repeat_world(random),
            4..=6 => without_n(random, World::overlapping),
            _ => without_n(random, World::new),
        };
        if !joined.reference.is_empty() {
            joined.reference.extend(any_bases(random, BETWEEN));
        }
        for (list, entries) in joined.lists.iter_mut().zip(world.lists) {
            let moved = |entry: Entry| Entry { pos: entry.pos + joined.reference.len(), ..entry };
            list.extend(entries.into_iter().map(moved));
        }
        joined.reference.extend(world.reference);
    }
    joined
}

fn any_bases(random: &mut Random, count: usize) -> Vec<u8> {
    (0..count).map(|_| *random.pick(b"ACGT")).collect()
}

fn without_n(random: &mut Random, draw: fn(&mut Random, usize) -> World) -> World {
    loop {
        let world = draw(random, ENTRIES_MOST);
        let mut entries = world.lists.iter().flatten();
        let has_n = |bases: &[u8]| bases.contains(&b'N');
        if !has_n(&world.reference) && !entries.any(|entry| entry.alleles().any(has_n)) {
            return world;
        }
    }
}

/// A repeat in which some units are taken away, or given twice, or both, as two ALTs: one entry in each list, each anywhere in the
/// repeat. The second may have its copies exchanged, its ALTs in the other order, or another genotype.
fn repeat_world(random: &mut Random) -> World {
    let (unit, times) = (random.between(1, UNIT_MOST), random.between(4, 20));
    let mut reference = any_bases(random, 1);
    reference.extend(any_bases(random, unit).iter().cycle().take(unit * times));
    let length = unit * random.between(1, 2);
    let mut ways = *random.pick(&[&[false][..], &[true], &[false, true]]);
    let copies = random_copies(random, ways.len());
    let mut place = || random.between(1, reference.len() - length);
    let places = [place(), place()];
    let first = changed(&reference, places[0], length, ways, copies);
    let mut copies = match random.below(6) {
        0 => random_copies(random, ways.len()),
        1 | 2 => [copies[1], copies[0]],
        _ => copies,
    };
    if ways.len() == 2 && random.once_in(2) {
        ways = &[true, false];
        copies = copies.map(|number| [0, 2, 1][number]);
    }
    let second = changed(&reference, places[1], length, ways, copies);
    World { lists: [vec![first], vec![second]], reference }
}

/// So many bases at a place, with the one before them: an ALT has them away (false) or twice (true).
fn changed(
    reference: &[u8],
    place: usize,
    length: usize,
    ways: &[bool],
    copies: [usize; 2],
) -> Entry {
    let (before, bases) = (&reference[place - 1..place], &reference[place..place + length]);
    let alt = |twice: &bool| if *twice { [before, bases, bases].concat() } else { before.to_vec() };
    let alts = ways.iter().map(alt).collect();
    Entry { pos: place, reference: [before, bases].concat(), alts, copies }
}
