//! matched [FOLDER]                 prints which entries of FOLDER/first.vcf and FOLDER/second.vcf match on
//!                                  FOLDER/reference.txt (FOLDER: the one it is started in)
//! matched REFERENCE FIRST SECOND   the same for three files
//!
//! It prints what examples/c/matched.c prints: one line a matched entry, in merged order, with its list, 1 or 2, a TAB, and its
//! record as it stands in the file; then how many are unmatched and undecided. Where the card refuses the input, the only
//! line is `refused`, number, list, line and place, and standard error says what is wrong there. Fields are TAB-separated.
//!
//! Exit status: 0; 1 where the card refuses the input; 2 where a file cannot be read, the lines cannot be written, or the
//! library linked is of another version than card.rs.
//!
//! To build it on x86-64 Linux, in the top folder:
//!
//!     programs/build card_abi
//!     rustc --edition 2021 -O -L target/staticlib examples/rust/main.rs -o matched

mod card;

use card::{Lists, Refusal};
use std::io::Write;
use std::path::{Path, PathBuf};
use std::process::ExitCode;
use std::{env, fs, io};

const REFUSED: u8 = 1;
const FAILED: u8 = 2;

/// What CHROM of every record has to be.
const NAME: &[u8] = b"chr1";

fn main() -> ExitCode {
    run().unwrap_or_else(|message| {
        eprintln!("matched: {message}");
        ExitCode::from(FAILED)
    })
}

/// Reads the files and prints what the card answers, or says what went wrong outside the card.
fn run() -> Result<ExitCode, String> {
    if !card::fits() {
        return Err("libcard_abi.a is of another version than card.rs".to_owned());
    }
    let [reference, first, second] = paths()?;
    let (reference, first, second) = (read(&reference)?, read(&first)?, read(&second)?);
    let lists = Lists { reference: bases(&reference), name: NAME, first: &first, second: &second };
    let (lines, status) = match matched(&lists) {
        Ok(lines) => (lines, ExitCode::SUCCESS),
        Err(refusal) => {
            let Refusal { number, list, line, place } = refusal;
            eprintln!("matched: {refusal}");
            let line = format!("refused\t{number}\t{list}\t{line}\t{place}\n");
            (line.into_bytes(), ExitCode::from(REFUSED))
        }
    };
    io::stdout()
        .write_all(&lines)
        .and_then(|()| io::stdout().flush())
        .map_err(|e| e.to_string())?;
    Ok(status)
}

/// Where the three files are.
fn paths() -> Result<[PathBuf; 3], String> {
    let words: Vec<PathBuf> = env::args_os().skip(1).map(PathBuf::from).collect();
    match words.as_slice() {
        [] => Ok(paths_in(Path::new("."))),
        [folder] => Ok(paths_in(folder)),
        [reference, first, second] => Ok([reference.clone(), first.clone(), second.clone()]),
        _ => Err("usage: matched [FOLDER] | matched REFERENCE FIRST SECOND".to_owned()),
    }
}

fn paths_in(folder: &Path) -> [PathBuf; 3] {
    ["reference.txt", "first.vcf", "second.vcf"].map(|file| folder.join(file))
}

fn read(path: &Path) -> Result<Vec<u8>, String> {
    fs::read(path).map_err(|error| format!("{}: {error}", path.display()))
}

/// The bases of a reference file: all but the LF at its end, which the card does not take. A file without that LF may have
/// been cut short. It gives no bases, and the card refuses that with 1.
fn bases(file: &[u8]) -> &[u8] {
    file.strip_suffix(b"\n").unwrap_or(&[])
}

/// Asks the card, and answers the lines to print.
fn matched(lists: &Lists) -> Result<Vec<u8>, Refusal> {
    let texts = [lists.first, lists.second].map(lines_of);
    let (mut lines, mut unmatched, mut undecided) = (Vec::new(), 0, 0);
    for (entry, mark) in card::marked(lists)? {
        match mark {
            b'0' => unmatched += 1,
            b'?' => undecided += 1,
            // `+`, or `-` where it matches with its two copies exchanged. A record may hold bytes that are no UTF-8.
            _ => {
                lines.extend(format!("{}\t", entry.list).into_bytes());
                lines.extend(texts[entry.list as usize - 1][entry.line as usize - 1]);
                lines.push(b'\n');
            }
        }
    }
    lines.extend(format!("unmatched\t{unmatched}\tundecided\t{undecided}\n").into_bytes());
    Ok(lines)
}

/// The lines of a text, without their LFs.
fn lines_of(text: &[u8]) -> Vec<&[u8]> {
    text.split(|byte| *byte == b'\n').collect()
}
