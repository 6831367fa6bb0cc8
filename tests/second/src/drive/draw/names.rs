//! Names for the programs: the one that the records have, and others.

use crate::drawn::lists::NAME;
use crate::drawn::random::Random;

/// What a program is given for a name, None where that is nothing, and of which kind it is.
pub struct Given {
    pub name: Option<Vec<u8>>,
    pub kind: &'static str,
}

pub const NONE: &str = "no name";
pub const OF_RECORDS: &str = "the records' name";
pub const OTHER: &str = "another name";
pub const EMPTY: &str = "an empty name";
pub const LONG: &str = "a name over 1,024 bytes";

/// No line is longer, so that no CHROM has as many bytes.
const LINE_MOST: usize = 1_024;

/// The longest CHROM that a record can have: the nine other fields and their TABs take 21 bytes at the least.
const CHROM_MOST: usize = LINE_MOST - 21;

const LONG_LENGTHS: [usize; 6] =
    [LINE_MOST + 1, LINE_MOST + 2, 2_048, 4_097, 65_536, LINE_MOST * 100];

/// Names that mean something elsewhere.
const USUAL: [&[u8]; 12] = [
    b"chr2", b"chr10", b"chr", b"1", b"X", b"CHR1", b"chr1 ", b" ", b"-", b"--name", b"chr1\t",
    b"chr1\n",
];

/// A name for the records and one for the program.
pub fn names(random: &mut Random) -> (Vec<u8>, Given) {
    let kind = match random.below(24) {
        0..=2 => NONE,
        3..=15 => OF_RECORDS,
        16..=19 => OTHER,
        20 | 21 => EMPTY,
        _ => LONG,
    };
    let records = match kind {
        NONE if !random.once_in(8) => NAME.to_vec(),
        _ => of_records(random),
    };
    let name = match kind {
        NONE => None,
        OF_RECORDS => Some(records.clone()),
        OTHER => Some(other(random, &records)),
        EMPTY => Some(Vec::new()),
        _ => {
            let length = *random.pick(&LONG_LENGTHS);
            Some(records.iter().copied().cycle().take(length).collect())
        }
    };
    (records, Given { name, kind })
}

/// A name that CHROM can have and that can be given: no TAB, LF or NUL in it, and no `#` before it.
fn of_records(random: &mut Random) -> Vec<u8> {
    let length = match random.below(40) {
        0 => CHROM_MOST,
        1 => random.between(25, CHROM_MOST),
        2..=14 => random.between(1, 24),
        15..=19 => return random.pick(&USUAL[..6]).to_vec(),
        _ => return NAME.to_vec(),
    };
    let byte = |_| match random.between(1, 255) as u8 {
        b'\t' | b'\n' | b'#' => b'c',
        byte => byte,
    };
    (0..length).map(byte).collect()
}

/// A name near that of the records, or any; never theirs.
fn other(random: &mut Random, records: &[u8]) -> Vec<u8> {
    let mut name = records.to_vec();
    let place = random.below(name.len());
    match random.below(6) {
        0 if name.len() > 1 => drop(name.pop()),
        1 => name.push(*random.pick(b"0 \t\n\xff")),
        2 => name[place] = if name[place] == b'x' { b'y' } else { b'x' },
        3 => name.insert(0, b'c'),
        4 => name = NAME.to_vec(),
        _ => name = random.pick(&USUAL).to_vec(),
    }
    if name == records {
        name.push(b'1');
    }
    name
}
