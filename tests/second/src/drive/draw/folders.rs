//! Folders for programs compare, counts and normalise: their three files, of lists as drawn or broken, and of files that are missing
//! or end in another way. In some of them an allele of ALT is at fault and all else is right: each fault in turn, in either list. And
//! the name that the program is given.

use super::names::{names, Given, NONE, OF_RECORDS};
use super::random_of;
use super::two_lists::{lists, TwoLists};
use crate::drawn::false_alts::false_alts;
use crate::drawn::list::{Drawn, ALT, CHROM, INFO, REF};
use crate::drawn::lists::NAME;
use crate::drawn::masked::masked;
use crate::drawn::pairs::{pair, worlds};
use crate::drawn::random::Random;
use crate::drive::at_allele::{AT_ALLELES, FIRST_RECASED, SECOND, SECOND_RECASED};

/// The names of the three files.
pub const FILES: [&str; 3] = ["reference.txt", "first.vcf", "second.vcf"];

/// One in so many folders has an allele at fault.
pub const ALT_IN: u64 = 6;

/// The longest name for a list of which no line may be too long.
const SHORT: usize = 100;

/// The bytes of the files, None for one that is missing.
pub type Folder = [Option<Vec<u8>>; 3];

/// Folder `number` of the run with this seed, for programs that are given no name.
pub fn folder(seed: u64, number: u64) -> (Folder, Given) {
    let random = &mut random_of(seed, number);
    if number % ALT_IN == ALT_IN - 1 {
        let files = alt_at_fault(random, NAME, number / ALT_IN);
        return (files, Given { name: None, kind: NONE });
    }
    let lists = any_lists(random);
    let lists = if random.once_in(40) { lists } else { lists.map(|list| renamed(list, NAME)) };
    let is_spoiled = random.below(10) > 5;
    (files(random, &lists, is_spoiled), Given { name: None, kind: NONE })
}

/// Folder `number` of the run with this seed, and a name to be given, or none.
pub fn named_folder(seed: u64, number: u64) -> (Folder, Given) {
    let random = &mut random_of(seed, number);
    if number % ALT_IN == ALT_IN - 1 {
        let (name, given) = short_name(random);
        return (alt_at_fault(random, &name, number / ALT_IN), given);
    }
    let lists = any_lists(random);
    let (name, given) = names(random);
    let lists = lists.map(|list| renamed(list, &name));
    let is_spoiled = random.once_in(4);
    (files(random, &lists, is_spoiled), given)
}

/// As the calls are lent them, or those of several worlds.
fn any_lists(random: &mut Random) -> [Drawn; 2] {
    if !random.once_in(4) {
        return lists(random);
    }
    let lists = worlds(random);
    masked(random, lists)
}

fn files(random: &mut Random, lists: &[Drawn; 2], is_spoiled: bool) -> Folder {
    let two = match is_spoiled {
        false => TwoLists::of(lists),
        true => TwoLists::spoiled(random, lists),
    };
    let TwoLists { reference, texts: [first, second], .. } = two;
    let mut folder = [[&reference[..], b"\n"].concat(), first, second].map(Some);
    if random.once_in(12) {
        spoil_files(random, &mut folder);
    }
    folder
}

/// The records' name, and that it is given.
fn short_name(random: &mut Random) -> (Vec<u8>, Given) {
    loop {
        let (name, given) = names(random);
        if given.kind == OF_RECORDS && name.len() <= SHORT {
            return (name, given);
        }
    }
}

/// Two lists that are right but for ALT of one record: of as many as there are faults in both lists, the one of this turn.
fn alt_at_fault(random: &mut Random, name: &[u8], turn: u64) -> Folder {
    let turn = turn as usize % (2 * AT_ALLELES.len());
    let (list, (row, allele)) = (turn / AT_ALLELES.len(), AT_ALLELES[turn % AT_ALLELES.len()]);
    let mut lists = loop {
        let lists = pair(random, 10).map(|list| renamed(list, name));
        let lists = masked(random, lists);
        if !lists[list].records.is_empty() {
            break lists;
        }
    };
    for fields in lists.iter_mut().flat_map(|list| &mut list.records) {
        fields[INFO] = b".".to_vec(); // Else a line may be as long as can be.
    }
    let number = random.below(lists[list].records.len());
    let fields = &mut lists[list].records[number];
    let is_second = [SECOND, SECOND_RECASED].contains(&allele);
    let is_recased = [FIRST_RECASED, SECOND_RECASED].contains(&allele);
    fields[ALT] = false_alts(random, &fields[REF], row, is_second, is_recased);
    let TwoLists { reference, texts: [first, second], .. } = TwoLists::of(&lists);
    [[&reference[..], b"\n"].concat(), first, second].map(Some)
}

/// With this name.
fn renamed(list: Drawn, name: &[u8]) -> Drawn {
    let mut list = Drawn { name: name.to_vec(), ..list };
    for fields in &mut list.records {
        fields[CHROM] = name.to_vec();
    }
    list
}

/// A file is missing or empty, ends in another way, or is another's.
fn spoil_files(random: &mut Random, folder: &mut Folder) {
    let (one, other) = (random.below(FILES.len()), random.below(FILES.len()));
    let is_missing = random.once_in(3);
    match &mut folder[one] {
        file if is_missing => *file = None,
        Some(bytes) => match random.below(6) {
            0 => bytes.clear(),
            1 => drop(bytes.pop()),
            2 => bytes.push(b'\n'),
            3 => bytes.extend(*random.pick(&[&b"A\n"[..], b"\0", b"\r\n"])),
            4 => bytes.insert(random.below(bytes.len() + 1), b'\n'),
            _ => folder.swap(one, other),
        },
        None => {}
    }
}
