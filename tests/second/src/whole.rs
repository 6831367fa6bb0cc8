//! Whole runs of a program: in drawn folders, what it prints is held to what is expected, byte by byte.

use crate::drive::at_allele::at_allele;
use crate::drive::draw::names::Given;
use crate::drive::lower_case::has_lower;
use crate::drive::room::{found_in_all, OPPOSITE};
use crate::part::{LF, TAB};
use crate::programs::NAME;
use std::collections::BTreeMap;
use std::ffi::OsStr;
use std::os::unix::ffi::OsStrExt;
use std::path::Path;
use std::process::{Command, Stdio};

/// One in so many folders, at least, is to be accepted, and one in so many refused. Of those accepted one in so many is to have
/// overlapping entries chosen on opposite copies, where a program marks.
const ONCE_IN: u64 = 10;

/// What of a folder with lists is in lower case.
pub const LOWER: [&str; 3] =
    ["upper case alone", "lower case in the reference", "lower case in list 1"];

/// A file's name and its bytes.
type File = (&'static str, Option<Vec<u8>>);

/// A folder for the program to run in, and what it is to print there.
pub struct Folder {
    /// Names and bytes of the files, None for one that is missing. Of a program that reads lists, list 1 is the second of them.
    pub files: Vec<File>,
    /// The name that the program is given, where it may be given one.
    pub given: Option<Given>,
    pub expected: Vec<u8>,
}

/// What the runs came upon.
#[derive(Default)]
pub struct Held {
    folders: u64,
    accepted: u64,
    differences: u64,
    /// How often each kind was to be printed: `refused`, number, list and allele of ALT, or what is told of an accepted folder.
    kinds: BTreeMap<String, u64>,
    /// How often each kind of name was given, to be answered and to be refused; and of folders with lists that were to be answered, what
    /// of the reference and of list 1 was in lower case, and what overlap did in the marks.
    given: BTreeMap<String, u64>,
}

/// Runs `command` in each folder. Where it prints something else, the first such folder is left, and named.
/// `kind` says of what kind something printed is that is no refusal.
pub fn hold(
    command: &[String],
    folders: impl Iterator<Item = Folder>,
    kind: fn(&str) -> String,
) -> Held {
    let mut place = std::env::temp_dir().join(format!("whole-{}", std::process::id()));
    let mut held = Held::default();
    for Folder { files, given, expected } in folders {
        held.note(&String::from_utf8_lossy(&expected), &files, kind, given.as_ref());
        lay(&place, &files);
        let name = given.and_then(|given| given.name);
        let (succeeded, printed) = run(command, name.as_deref(), &place);
        if !succeeded || printed != expected {
            held.differences += 1;
            println!("whole: folder {}: {}", held.folders - 1, told(&expected, &printed));
            if held.differences == 1 {
                println!("whole: it is left as {}", place.display());
                if let Some(name) = name {
                    println!("whole: the name given is {}", name.escape_ascii());
                }
                place.set_extension("next");
                continue;
            }
        }
        std::fs::remove_dir_all(&place).expect("the folder is taken away");
    }
    held
}

impl Held {
    fn note(
        &mut self,
        expected: &str,
        files: &[File],
        kind: fn(&str) -> String,
        given: Option<&Given>,
    ) {
        let (kind, comes_to) = match refusal(expected, files) {
            Some(refusal) => (refusal, "refused"),
            None => {
                self.accepted += 1;
                let name = given.and_then(|given| given.name.as_deref()).unwrap_or(NAME);
                for what in lower_case(files).into_iter().chain(overlap(files, name)) {
                    *self.given.entry(format!("{what} answered")).or_default() += 1;
                }
                (kind(expected), "answered")
            }
        };
        self.folders += 1;
        *self.kinds.entry(kind).or_default() += 1;
        if let Some(given) = given {
            *self.given.entry(format!("{} {comes_to}", given.kind)).or_default() += 1;
        }
    }

    /// Whether nothing differs, folders of both sorts are not rare, and nothing of `demanded` is missing.
    pub fn is_good(&self, demanded: &[impl AsRef<str>]) -> bool {
        let least = self.folders / ONCE_IN;
        let are_of_both = self.accepted >= least && self.folders - self.accepted >= least;
        self.differences == 0 && are_of_both && self.missing(demanded).is_empty()
    }

    /// The kinds of `demanded` that are not there; and entries chosen on opposite copies, where they are rare among what is accepted.
    pub fn missing<'a>(&self, demanded: &'a [impl AsRef<str>]) -> Vec<&'a str> {
        let count =
            |kind: &str| self.kinds.get(kind).or(self.given.get(kind)).copied().unwrap_or(0);
        let least = |kind: &str| match kind.starts_with(OPPOSITE) {
            true => (self.accepted / ONCE_IN).max(1),
            false => 1,
        };
        demanded.iter().map(AsRef::as_ref).filter(|kind| count(kind) < least(kind)).collect()
    }

    pub fn tell(&self, program: &str, seed: u64) {
        println!(
            "printed, and number/list and allele of ALT where refused: {}",
            counted(&self.kinds)
        );
        if !self.given.is_empty() {
            println!("names given, lower case, and overlap: {}", counted(&self.given));
        }
        let Held { folders, accepted, differences, .. } = self;
        println!(
            "whole: {folders} folders for {program}, seed {seed}, {accepted} accepted, {differences} differences"
        );
    }
}

/// What of the reference and of list 1 is in lower case, where the folder has lists.
fn lower_case(files: &[File]) -> Vec<&'static str> {
    let bytes = |number: usize| files.get(number).and_then(|(_, bytes)| bytes.as_deref());
    let (Some(reference), Some(list)) = (bytes(0), bytes(1)) else { return Vec::new() };
    let records = list.split(|byte| *byte == LF).filter(|line| !line.starts_with(b"#"));
    let alleles = records.flat_map(|line| line.split(|byte| *byte == TAB).skip(3).take(2));
    let found = [(LOWER[1], has_lower(reference)), (LOWER[2], alleles.into_iter().any(has_lower))];
    match found {
        [(_, false), (_, false)] => vec![LOWER[0]],
        _ => found.into_iter().filter(|(_, is_so)| *is_so).map(|(what, _)| what).collect(),
    }
}

/// What overlap does in the marks, where the folder has two lists that are accepted.
fn overlap(files: &[File], name: &[u8]) -> Vec<&'static str> {
    let [(_, Some(reference)), (_, Some(first)), (_, Some(second))] = files else {
        return Vec::new();
    };
    let bases = reference.strip_suffix(&[LF]).unwrap_or_default();
    found_in_all(bases, name, [first, second])
}

fn counted(kinds: &BTreeMap<String, u64>) -> String {
    let kinds: Vec<String> = kinds.iter().map(|(kind, count)| format!("{kind} {count}")).collect();
    kinds.join(", ")
}

/// `refused`, number and list of a line that tells a refusal, and the allele of ALT where it is told at one.
fn refusal(printed: &str, files: &[File]) -> Option<String> {
    let fields = printed.strip_prefix("refused\t")?.trim_end().split('\t');
    let numbers: Vec<u32> = fields.map(|field| field.parse().expect("a number")).collect();
    let [number, list, line, place] = numbers[..] else { panic!("not four numbers: {printed}") };
    let text = files.get(list as usize).and_then(|(_, bytes)| bytes.as_deref());
    let allele = at_allele(number, text.unwrap_or_default(), line, place);
    Some(format!("refused {number}/{list} {allele}").trim_end().to_string())
}

fn lay(place: &Path, files: &[File]) {
    std::fs::create_dir_all(place).expect("a folder");
    for (name, bytes) in files {
        if let Some(bytes) = bytes {
            std::fs::write(place.join(name), bytes).expect("a file is written");
        }
    }
}

/// Whether the program ended well, and what it printed.
fn run(command: &[String], name: Option<&[u8]>, place: &Path) -> (bool, Vec<u8>) {
    let mut program = Command::new(&command[0]);
    program.args(&command[1..]).args(name.map(OsStr::from_bytes));
    program.current_dir(place).stdin(Stdio::null());
    let output = program.output().expect("the command is run");
    (output.status.success() && output.stderr.is_empty(), output.stdout)
}

/// The first line that differs, as it should be and as it is.
fn told(expected: &[u8], printed: &[u8]) -> String {
    let lines =
        |bytes: &[u8]| bytes.split(|byte| *byte == b'\n').map(<[u8]>::to_vec).collect::<Vec<_>>();
    let (expected, printed) = (lines(expected), lines(printed));
    let same = expected.iter().zip(&printed).take_while(|(one, other)| one == other).count();
    let shown = |lines: &[Vec<u8>]| {
        lines.get(same).map_or("nothing".to_string(), |line| line.escape_ascii().to_string())
    };
    format!("line {}: expected {}, printed {}", same + 1, shown(&expected), shown(&printed))
}
