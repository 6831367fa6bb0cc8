//! One accepted list in all its variety: header lines, names and carried fields of any bytes,
//! alleles of up to 64 bases, entries at both ends of the reference.

use super::lists::{all_lines, COLUMN_LINE, NAME, VERSION_LINE};
use super::random::Random;
use super::repeats::{repeat, repeat_entry};
use super::world::{random_copies, random_entry, random_reference};
use crate::Entry;

/// The longest line, without its LF.
pub const LINE_MOST: usize = 1_024;
pub const ALLELE_MOST: usize = 64;

// The fields of a record that are changed by name.
pub const CHROM: usize = 0;
pub const POS: usize = 1;
pub const REF: usize = 3;
pub const ALT: usize = 4;
pub const INFO: usize = 7;
pub const FORMAT: usize = 8;
pub const SAMPLE: usize = 9;

/// The fields of a record line, ten of them as long as nothing is wrong with it.
pub type Fields = Vec<Vec<u8>>;

/// A reference, a name and a list, not yet put together to a text.
#[derive(Clone)]
pub struct Drawn {
    pub reference: Vec<u8>,
    pub name: Vec<u8>,
    /// The lines up to the column line, without their LF.
    pub header: Vec<Vec<u8>>,
    pub records: Vec<Fields>,
}

impl Drawn {
    /// A list of at most `most` records on a small reference.
    pub fn new(random: &mut Random, most: usize) -> Drawn {
        let length = random.between(1, 300);
        let reference = match random.below(16) {
            0 => any_bases(random, length, length),
            1 | 2 => repeat(random, length),
            _ => random_reference(random),
        };
        let count = random.between(0, most);
        Drawn::on(random, reference, count)
    }

    /// A list of `count` records on this reference.
    pub fn on(random: &mut Random, reference: Vec<u8>, count: usize) -> Drawn {
        let name = any_name(random);
        let entries = any_entries(random, &reference, count);
        Drawn::of(random, reference, name, &entries)
    }

    /// Another list of `count` records for the reference and the name of this one.
    pub fn beside(&self, random: &mut Random, count: usize) -> Drawn {
        let entries = any_entries(random, &self.reference, count);
        Drawn::of(random, self.reference.clone(), self.name.clone(), &entries)
    }

    /// The list of these entries.
    pub fn of(random: &mut Random, reference: Vec<u8>, name: Vec<u8>, entries: &[Entry]) -> Drawn {
        let records = entries.iter().map(|entry| fields(random, &name, entry)).collect();
        Drawn { header: header(random), reference, name, records }
    }

    pub fn text(&self) -> Vec<u8> {
        let records = self.records.iter().map(|fields| fields.join(&b'\t'));
        all_lines(self.header.iter().cloned().chain(records))
    }
}

/// The field INFO is lengthened so that the line is `length` bytes long, if it is not already longer.
pub fn fill_line(fields: &mut Fields, length: usize) {
    let line = fields.join(&b'\t').len();
    let field = INFO.min(fields.len() - 1);
    fields[field].extend(vec![b'i'; length.saturating_sub(line)]);
}

pub fn any_bases(random: &mut Random, least: usize, most: usize) -> Vec<u8> {
    let length = random.between(least, most);
    (0..length).map(|_| *random.pick(b"ACGTN")).collect()
}

/// Any bytes but TAB and LF, which end a field and a line.
fn any_bytes(random: &mut Random, least: usize, most: usize) -> Vec<u8> {
    let length = random.between(least, most);
    let byte = |_| match random.below(256) as u8 {
        b'\t' | b'\n' => b'\r',
        byte => byte,
    };
    (0..length).map(byte).collect()
}

/// A name that CHROM can have: it does not begin a `#` line.
pub fn any_name(random: &mut Random) -> Vec<u8> {
    if !random.once_in(4) {
        return NAME.to_vec();
    }
    let mut name = any_bytes(random, 1, 24);
    if name[0] == b'#' {
        name[0] = 0;
    }
    name
}

fn header(random: &mut Random) -> Vec<Vec<u8>> {
    let mut lines = vec![VERSION_LINE.as_bytes().to_vec()];
    for _ in 0..random.below(4) {
        let longest = if random.once_in(40) { LINE_MOST - 2 } else { 30 };
        lines.push([&b"##"[..], &any_bytes(random, 0, longest)].concat());
    }
    let sample = any_bytes(random, 1, 12);
    let (columns, _) = COLUMN_LINE.rsplit_once('\t').expect("ten names");
    lines.push([columns.as_bytes(), b"\t", &sample].concat());
    lines
}

/// So many entries, by POS.
fn any_entries(random: &mut Random, reference: &[u8], count: usize) -> Vec<Entry> {
    let mut entries: Vec<Entry> = (0..count).map(|_| any_entry(random, reference)).collect();
    entries.sort_by_key(|entry| entry.pos);
    entries
}

/// Short alleles mostly, as `world` draws them; else alleles of up to 64 bases, as `repeats` draws them or
/// any, often up to the reference's end.
fn any_entry(random: &mut Random, reference: &[u8]) -> Entry {
    match random.below(8) {
        0 => {}
        1 | 2 => return repeat_entry(random, reference),
        _ => return random_entry(random, reference),
    }
    let length = random.between(1, ALLELE_MOST.min(reference.len()));
    let last = reference.len() - length;
    let start = if random.once_in(2) { last } else { random.between(0, last) };
    let replaced = reference[start..start + length].to_vec();
    let mut alts: Vec<Vec<u8>> = Vec::new();
    let count = random.between(1, 2);
    while alts.len() < count {
        let most = *random.pick(&[1, 2, ALLELE_MOST]);
        let alt = any_bases(random, 1 + most / 2, most);
        if alt != replaced && !alts.contains(&alt) {
            alts.push(alt);
        }
    }
    let copies = random_copies(random, alts.len());
    Entry { pos: start + 1, reference: replaced, alts, copies }
}

/// A record's ten fields. ID, QUAL, FILTER and INFO, what follows `GT:` and what follows the
/// genotype are carried.
fn fields(random: &mut Random, name: &[u8], entry: &Entry) -> Fields {
    let [left, right] = entry.copies;
    let separator = *random.pick(&['/', '|']);
    let (mut format, mut sample) =
        (b"GT".to_vec(), format!("{left}{separator}{right}").into_bytes());
    if random.once_in(3) {
        format = [b"GT:", &any_bytes(random, 0, 8)[..]].concat();
    }
    if random.once_in(3) {
        sample = [&sample[..], b":", &any_bytes(random, 0, 8)].concat();
    }
    let mut fields = vec![
        name.to_vec(),
        entry.pos.to_string().into_bytes(),
        carried(random),
        entry.reference.clone(),
        entry.alts.join(&b','),
        carried(random),
        carried(random),
        carried(random),
        format,
        sample,
    ];
    if random.once_in(60) {
        fill_line(&mut fields, LINE_MOST);
    }
    fields
}

fn carried(random: &mut Random) -> Vec<u8> {
    match random.once_in(3) {
        true => any_bytes(random, 1, 16),
        false => b".".to_vec(),
    }
}
