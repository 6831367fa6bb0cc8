//! `whole [--named] PROGRAM COUNT SEED COMMAND..` draws COUNT folders from SEED, runs PROGRAM, which COMMAND starts, in each of them, and
//! holds what it prints to what this package prints. PROGRAM is `compare`, `counts`, `normalise` or `lot_report`. With --named, which
//! lot_report has not, the program is given names too: the one that the records have, others, an empty one, and one too long for any.

use second::drive::at_allele::AT_ALLELES;
use second::drive::draw::folders::{folder, named_folder, FILES};
use second::drive::draw::names::Given;
use second::drive::draw::runs::{self, runs_file};
use second::drive::room::OF_MARKS;
use second::programs::NAME;
use second::whole::{hold, Folder, LOWER};
use std::process::ExitCode;

/// What each run of lot_report is to come upon.
const REFUSED_LOTS: [&str; 5] =
    ["refused 3/0", "refused 5/0", "refused 6/0", "refused 30/0", "refused 31/0"];

/// What each run with names is to come upon.
const GIVEN: [&str; 6] = [
    "no name answered",
    "the records' name answered",
    "another name refused",
    "an empty name refused",
    "a name over 1,024 bytes refused",
    "refused 7/1",
];

/// A program by its name: its folder of a seed and number, the kind of something that it prints, and the kinds that are demanded, of
/// a program that reads lists among them each fault of an allele of ALT in each list, and what is in lower case; of one that marks them
/// also what overlap does.
struct Program {
    draw: Box<dyn Fn(u64, u64) -> Folder>,
    kind: fn(&str) -> String,
    demanded: Vec<String>,
}

fn main() -> ExitCode {
    let mut arguments: Vec<String> = std::env::args().skip(1).collect();
    let is_named = arguments.first().is_some_and(|word| word == "--named");
    arguments.drain(..usize::from(is_named));
    let Some((program, count, seed, command)) = parsed(&arguments, is_named) else {
        eprintln!(
            "usage: whole [--named] compare|counts|normalise|lot_report COUNT SEED COMMAND.."
        );
        return ExitCode::from(2);
    };
    let folders = (0..count).map(|number| (program.draw)(seed, number));
    let held = hold(command, folders, program.kind);
    held.tell(&arguments[0], seed);
    let missing = held.missing(&program.demanded);
    if !missing.is_empty() {
        println!("whole: no folder, or too few, came to: {}", missing.join(", "));
    }
    match held.is_good(&program.demanded) {
        true => ExitCode::SUCCESS,
        false => ExitCode::FAILURE,
    }
}

fn parsed(arguments: &[String], is_named: bool) -> Option<(Program, u64, u64, &[String])> {
    let [program, count, seed, command @ ..] = arguments else { return None };
    let of_lists = |print, kind, lists, of_marks: &[&str]| {
        let draw = Box::new(move |seed, number| of_two_lists(seed, number, is_named, print));
        let given: &[&str] = if is_named { &GIVEN } else { &[] };
        let answered = LOWER.iter().chain(of_marks).map(|what| format!("{what} answered"));
        let given = given.iter().map(ToString::to_string).chain(answered);
        let demanded = given.chain(at_alleles(lists)).collect();
        Program { draw, kind, demanded }
    };
    let program = match program.as_str() {
        "compare" => of_lists(second::compare, of_table, 2, &OF_MARKS),
        "counts" => of_lists(second::counts, of_counts, 2, &OF_MARKS),
        "normalise" => of_lists(normalise, of_text, 1, &[]),
        "lot_report" if !is_named => {
            let demanded = REFUSED_LOTS.map(String::from).to_vec();
            Program { draw: Box::new(reported), kind: of_report, demanded }
        }
        _ => return None,
    };
    let (count, seed) = (count.parse().ok()?, seed.parse().ok()?);
    (!command.is_empty()).then_some((program, count, seed, command))
}

/// The rows on ALT at each allele, in each of so many lists.
fn at_alleles(lists: usize) -> impl Iterator<Item = String> {
    let of_a_list =
        |list| AT_ALLELES.map(move |(number, allele)| format!("refused {number}/{list} {allele}"));
    (1..=lists).flat_map(of_a_list)
}

/// What a program prints for the bytes of its reference, its name, and those of its lists.
type Print = fn(&[u8], &[u8], &[u8], &[u8]) -> Vec<u8>;

/// Program normalise does not read the second list.
fn normalise(reference: &[u8], name: &[u8], first: &[u8], _: &[u8]) -> Vec<u8> {
    second::normalise(reference, name, first)
}

/// A missing file counts as empty.
fn of_two_lists(seed: u64, number: u64, is_named: bool, print: Print) -> Folder {
    let (folder, given) = if is_named { named_folder(seed, number) } else { folder(seed, number) };
    let [reference, first, second] =
        folder.each_ref().map(|file| file.as_deref().unwrap_or_default());
    let Given { name, .. } = &given;
    let expected = print(reference, name.as_deref().unwrap_or(NAME), first, second);
    let files = FILES.into_iter().zip(folder).collect();
    Folder { files, given: is_named.then_some(given), expected }
}

fn reported(seed: u64, number: u64) -> Folder {
    let file = runs_file(seed, number);
    let expected = second::lot_report(file.as_deref().unwrap_or_default());
    Folder { files: vec![(runs::FILE, file)], given: None, expected }
}

/// How many records.
fn of_text(printed: &str) -> String {
    let records = printed.lines().filter(|line| !line.starts_with('#')).count();
    let records = match records {
        0 => "no record",
        1 => "one record",
        2..=9 => "records",
        _ => "many records",
    };
    records.to_string()
}

/// How many clusters, and whether some are undecided.
fn of_table(printed: &str) -> String {
    let lines: Vec<Vec<&str>> = printed.lines().map(|line| line.split('\t').collect()).collect();
    let (_, entries) = lines[1..].split_last().expect("a total line");
    let clusters = entries.last().map_or(0, |entry| 1 + entry[2].parse::<u32>().expect("a number"));
    let clusters = match clusters {
        0 => "no cluster",
        1 => "one cluster",
        2..=9 => "clusters",
        _ => "many clusters",
    };
    let is_undecided = entries.iter().any(|entry| entry[3] == "?");
    format!("{clusters}{}", if is_undecided { " (some undecided)" } else { "" })
}

/// Which counts are not zero in some list.
fn of_counts(printed: &str) -> String {
    let numbers: Vec<&str> = printed.trim_end().split('\t').collect();
    let is_there = |kind: &usize| numbers[*kind] != "0" || numbers[kind + 3] != "0";
    let names = ["matched", "unmatched", "undecided"];
    let there: Vec<&str> = (0..3).filter(is_there).map(|kind| names[kind]).collect();
    if there.is_empty() {
        "no entry".to_string()
    } else {
        there.join(" and ")
    }
}

/// How many runs, and whether a share is none, of the lot or of a run.
fn of_report(printed: &str) -> String {
    let lines: Vec<&str> = printed.lines().collect();
    let runs = match lines.len() - 2 {
        1 => "one run",
        2..=255 => "runs",
        _ => "256 runs",
    };
    let is_none = |line: &&str| line.contains("\tnone");
    let none = match (is_none(&lines[lines.len() - 1]), lines.iter().any(|line| is_none(&line))) {
        (true, _) => " (none for the lot)",
        (_, true) => " (none for a run)",
        _ => "",
    };
    format!("{runs}{none}")
}
