//! At which allele of ALT a refusal is told, found from its place and the text alone; and whether what it is equal to has its letters
//! in another case.

use crate::part::{COMMA, LF, TAB};

pub const FIRST: &str = "at the first";
pub const SECOND: &str = "at the second";
pub const FIRST_RECASED: &str = "at the first in another case";
pub const SECOND_RECASED: &str = "at the second in another case";

/// The rows on ALT, each with the alleles that it can be told at; those that tell equal alleles also with what they differ in.
pub const AT_ALLELES: [(u32, &str); 10] = [
    (20, FIRST),
    (20, SECOND),
    (21, FIRST),
    (21, SECOND),
    (22, FIRST),
    (22, SECOND),
    (23, SECOND),
    (22, FIRST_RECASED),
    (22, SECOND_RECASED),
    (23, SECOND_RECASED),
];

/// Before ALT stand CHROM, POS, ID and REF, each with its TAB.
const FIELDS_BEFORE: usize = 4;

/// The allele that begins at this place of the line, counted from 1, where the row is one on ALT; else nothing.
pub fn at_allele(number: u32, text: &[u8], line: u32, place: u32) -> &'static str {
    if !AT_ALLELES.iter().any(|(row, _)| *row == number) {
        return "";
    }
    let mut lines = text.split(|byte| *byte == LF);
    let line = lines.nth(line as usize - 1).expect("a line of the text");
    let fields: Vec<&[u8]> = line.split(|byte| *byte == TAB).collect();
    let start: usize = fields[..FIELDS_BEFORE].iter().map(|field| field.len() + 1).sum();
    let alleles: Vec<&[u8]> = fields[FIELDS_BEFORE].splitn(2, |byte| *byte == COMMA).collect();
    let is_first = place as usize == start;
    if !is_first && (alleles.len() == 1 || place as usize != start + alleles[0].len() + 1) {
        panic!("no allele begins at byte {place} of {}", line.escape_ascii());
    }
    let told = alleles[usize::from(!is_first)];
    let is_recased = match number {
        22 => told != fields[FIELDS_BEFORE - 1],
        23 => told != alleles[0],
        _ => false,
    };
    match (is_first, is_recased) {
        (true, false) => FIRST,
        (false, false) => SECOND,
        (true, true) => FIRST_RECASED,
        (false, true) => SECOND_RECASED,
    }
}
