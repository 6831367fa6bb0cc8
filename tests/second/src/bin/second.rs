//! `second PROGRAM DIR [NAME]` prints what the program of this name prints: `compare`, `normalise` and `counts` for DIR's
//! reference.txt, first.vcf and second.vcf, and where NAME is given with that in place of chr1; `lot_report` for its runs.tsv.

use second::programs::NAME;
use std::ffi::{OsStr, OsString};
use std::io::Write;
use std::os::unix::ffi::OsStrExt;
use std::path::Path;
use std::process::ExitCode;

/// A file that can't be read counts as empty.
fn bytes_of(directory: &OsStr, file: &str) -> Vec<u8> {
    std::fs::read(Path::new(directory).join(file)).unwrap_or_default()
}

fn main() -> ExitCode {
    // A name may be any bytes.
    let arguments: Vec<OsString> = std::env::args_os().skip(1).collect();
    let Some(printed) = printed(&arguments) else {
        eprintln!("usage: second compare|normalise|counts DIR [NAME], second lot_report DIR");
        return ExitCode::FAILURE;
    };
    match std::io::stdout().write_all(&printed) {
        Ok(()) => ExitCode::SUCCESS,
        Err(_) => ExitCode::FAILURE,
    }
}

fn printed(arguments: &[OsString]) -> Option<Vec<u8>> {
    let (program, directory, name) = match arguments {
        [program, directory] => (program.to_str()?, directory, NAME),
        [program, directory, name] if program != "lot_report" => {
            (program.to_str()?, directory, name.as_bytes())
        }
        _ => return None,
    };
    let [reference, first, second] =
        ["reference.txt", "first.vcf", "second.vcf"].map(|file| bytes_of(directory, file));
    match program {
        "compare" => Some(second::compare(&reference, name, &first, &second)),
        "normalise" => Some(second::normalise(&reference, name, &first)),
        "counts" => Some(second::counts(&reference, name, &first, &second)),
        "lot_report" => Some(second::lot_report(&bytes_of(directory, "runs.tsv"))),
        _ => None,
    }
}
