//! One record line: rows 6 to 13 of document 01, tried as numbered, with rows 20 to 23 in the place of 10.
//!
//! ID, QUAL, FILTER and INFO are carried: nothing here looks at them but for being there.

use crate::alt;
use crate::bases::{folded, is_base, same};
use crate::entry::Entry;
use crate::part::{Part, COLON, TAB};
use crate::reference::REFERENCE_MOST;
use crate::refusal::*;

const FIELDS: usize = 10;
pub const ALLELE_MOST: usize = 64;

/// An entry, and the parts of the text that hold it, as they were lent.
#[derive(Clone, Debug, PartialEq, Eq)]
pub struct Record {
    pub entry: Entry,
    /// Without its LF.
    pub line: Part,
    pub pos: Part,
    pub reference: Part,
    pub alts: Vec<Part>,
}

/// Reads one line, or gives the first row that holds on it.
pub fn read(reference: &[u8], name: &[u8], text: &[u8], line: Part) -> Result<Record, Row> {
    let fields = ten_fields(text, line).ok_or(NOT_TEN_FIELDS)?;
    let [chrom, pos, _, reference_field, alt, _, _, _, format, sample] = fields;
    if chrom.of(text) != name {
        return Err(WRONG_CHROM.into());
    }
    let position = position(pos.of(text)).ok_or(WRONG_POS)?;
    let replaced = reference_field.of(text);
    if !is_allele(replaced) {
        return Err(WRONG_REF.into());
    }
    let alts = alt::read(text, line, alt, replaced)?;
    if !is_format(format.of(text)) {
        return Err(WRONG_GENOTYPE.into());
    }
    let copies = genotype(sample.of(text), alts.len()).ok_or(WRONG_GENOTYPE)?;
    if copies == [0, 0] {
        return Err(GENOTYPE_ZERO.into());
    }
    let there = reference.get(position - 1..position - 1 + replaced.len());
    if !there.is_some_and(|there| same(there, replaced)) {
        return Err(NOT_THE_REFERENCE.into());
    }
    let entry = Entry {
        pos: position,
        reference: folded(replaced),
        alts: alts.iter().map(|part| folded(part.of(text))).collect(),
        copies,
    };
    Ok(Record { entry, line, pos, reference: reference_field, alts })
}

/// Exactly ten TAB-separated fields, none empty.
fn ten_fields(text: &[u8], line: Part) -> Option<[Part; FIELDS]> {
    let fields: [Part; FIELDS] = line.split(text, TAB).try_into().ok()?;
    fields.iter().all(|field| field.length > 0).then_some(fields)
}

/// 1 to 65,535, decimal, no leading zero. A number with more digits than 65,535 is not spelled out.
fn position(field: &[u8]) -> Option<usize> {
    let most = REFERENCE_MOST.to_string().len();
    let plain = field.iter().all(u8::is_ascii_digit) && !field.starts_with(b"0");
    if !plain || field.len() > most {
        return None;
    }
    let value = field.iter().fold(0, |value, digit| 10 * value + usize::from(digit - b'0'));
    (1..=REFERENCE_MOST).contains(&value).then_some(value)
}

/// 1 to 64 bases.
fn is_allele(bytes: &[u8]) -> bool {
    (1..=ALLELE_MOST).contains(&bytes.len()) && bytes.iter().all(|&byte| is_base(byte))
}

/// `GT`, or begins with `GT:`.
fn is_format(format: &[u8]) -> bool {
    format == b"GT" || format.starts_with(b"GT:")
}

/// One digit, `/` or `|`, one digit, up to the first colon; each digit at most the number of ALTs.
fn genotype(sample: &[u8], alts: usize) -> Option<[usize; 2]> {
    let digits = match sample.split(|&byte| byte == COLON).next()? {
        [left, b'/' | b'|', right] => [*left, *right],
        _ => return None,
    };
    if !digits.iter().all(u8::is_ascii_digit) {
        return None;
    }
    let copies = digits.map(|digit| usize::from(digit - b'0'));
    copies.iter().all(|&copy| copy <= alts).then_some(copies)
}
