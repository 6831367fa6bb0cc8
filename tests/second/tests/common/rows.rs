//! The rows of document 01 and of requests a and b that can hold in a list text, each said as a predicate.
//!
//! Written apart from the reader: nothing here is told what the reader found or how it goes about it.

use super::lists::{COLUMN_LINE, VERSION_LINE};

/// A row, and the number of the allele of ALT that it is about, 1 or 2; 0 where it is about none.
pub type Row = (u32, usize);

/// The rows that can hold on a line, in the order they are tried.
pub const ON_A_LINE: [Row; 18] = [
    (4, 0),
    (5, 0),
    (15, 0),
    (6, 0),
    (7, 0),
    (8, 0),
    (9, 0),
    (20, 1),
    (21, 1),
    (22, 1),
    (20, 2),
    (21, 2),
    (22, 2),
    (23, 2),
    (11, 0),
    (12, 0),
    (13, 0),
    (14, 0),
];

pub fn row_3_holds(text: &[u8]) -> bool {
    text.len() > 65_536 || !text.ends_with(b"\n")
}

/// A text that row 3 leaves, by lines.
pub struct Lines<'a> {
    reference: &'a [u8],
    name: &'a [u8],
    lines: Vec<&'a [u8]>,
}

impl<'a> Lines<'a> {
    pub fn new(reference: &'a [u8], name: &'a [u8], text: &'a [u8]) -> Lines<'a> {
        let lines = text[..text.len() - 1].split(|byte| *byte == b'\n').collect();
        Lines { reference, name, lines }
    }

    pub fn count(&self) -> usize {
        self.lines.len()
    }

    /// Whether `row` holds on line `number`, from 1, if no row holds on an earlier line and no row
    /// that is tried before holds on this.
    pub fn holds(&self, (row, allele): Row, number: usize) -> bool {
        let column = self.lines.iter().position(|line| !line.starts_with(b"##"));
        let column = column.map_or(self.count() + 1, |index| index + 1);
        let Some(line) = self.lines.get(number - 1) else {
            return row == 5 && column == number;
        };
        match row {
            4 => line.len() >= 1_025,
            5 if number == 1 => line != &VERSION_LINE.as_bytes(),
            5 if number < column => false,
            5 if number == column => !is_column_line(line),
            5 => line.first() == Some(&b'#'),
            _ if number <= column => false,
            15 => number - column > 512,
            14 => number - column > 1 && self.pos(number) < self.pos(number - 1),
            20..=23 => alt_row_holds(row, allele, line),
            _ => self.record_row_holds(row, line),
        }
    }

    /// The byte of line `number` where the row's allele begins: so many stand before it. 0 where it is about none.
    pub fn place(&self, (_, allele): Row, number: usize) -> u32 {
        if allele == 0 {
            return 0;
        }
        let fields = fields(self.lines[number - 1]);
        let before: Vec<&[u8]> =
            fields[..4].iter().chain(&alleles(fields[4])[..allele - 1]).copied().collect();
        before.concat().len() as u32 + before.len() as u32
    }

    fn pos(&self, number: usize) -> Option<usize> {
        pos(fields(self.lines[number - 1]).get(1)?)
    }

    fn record_row_holds(&self, row: u32, line: &[u8]) -> bool {
        let fields = fields(line);
        if row == 6 {
            return fields.len() != 10 || fields.contains(&&b""[..]);
        }
        let (reference, format, sample) = (fields[3], fields[8], fields[9]);
        let alts = alleles(fields[4]).len();
        let until_colon = sample.split(|byte| *byte == b':').next().unwrap_or_default();
        match row {
            7 => fields[0] != self.name,
            8 => pos(fields[1]).is_none(),
            9 => !is_allele(reference),
            11 => {
                let known = &b"012"[..=alts];
                let genotypes = known.iter().flat_map(|left| {
                    known
                        .iter()
                        .flat_map(move |right| [[*left, b'/', *right], [*left, b'|', *right]])
                });
                let is_known = genotypes.into_iter().any(|genotype| genotype == until_colon);
                format.split(|byte| *byte == b':').next() != Some(b"GT") || !is_known
            }
            12 => until_colon == b"0/0" || until_colon == b"0|0",
            _ => {
                let start = pos(fields[1]).expect("row 8 was tried before") - 1;
                let there = self.reference.get(start..start + reference.len());
                !there.is_some_and(|there| there.eq_ignore_ascii_case(reference))
            }
        }
    }
}

/// Rows 20 to 23 about allele 1 or 2, if there is such an allele.
fn alt_row_holds(row: u32, allele: usize, line: &[u8]) -> bool {
    let fields = fields(line);
    let alleles = alleles(fields[4]);
    let Some(bytes) = alleles.get(allele - 1) else { return false };
    match row {
        20 => !(1..65).contains(&bytes.len()),
        21 => bytes.iter().any(|byte| !b"ACGTNacgtn".contains(byte)),
        22 => bytes.eq_ignore_ascii_case(fields[3]),
        _ => bytes.eq_ignore_ascii_case(alleles[0]),
    }
}

/// All of ALT, or what stands before its first comma and what stands behind that.
fn alleles(alt: &[u8]) -> Vec<&[u8]> {
    alt.splitn(2, |byte| *byte == b',').collect()
}

fn fields(line: &[u8]) -> Vec<&[u8]> {
    line.split(|byte| *byte == b'\t').collect()
}

fn is_column_line(line: &[u8]) -> bool {
    let (fields, expected) = (fields(line), fields(COLUMN_LINE.as_bytes()));
    fields.len() == 10 && fields[..9] == expected[..9] && !fields[9].is_empty()
}

fn is_allele(bytes: &[u8]) -> bool {
    !bytes.is_empty() && bytes.len() <= 64 && bytes.iter().all(|byte| b"ACGTNacgtn".contains(byte))
}

/// The number from 1 to 65,535 that is written so.
fn pos(field: &[u8]) -> Option<usize> {
    let number: usize = std::str::from_utf8(field).ok()?.parse().ok()?;
    let is_written_so = number.to_string().as_bytes() == field;
    (is_written_so && (1..=65_535).contains(&number)).then_some(number)
}
