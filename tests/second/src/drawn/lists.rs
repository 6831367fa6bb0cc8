//! Making list texts, in short: a record is written "POS REF ALT GT".

use crate::Entry;

pub const NAME: &[u8] = b"chr1";
pub const VERSION_LINE: &str = "##fileformat=VCFv4.2";
pub const COLUMN_LINE: &str = "#CHROM\tPOS\tID\tREF\tALT\tQUAL\tFILTER\tINFO\tFORMAT\tsample";

/// The line number of the first record of a text that `text` makes.
pub const FIRST_RECORD: u32 = 3;

/// A record line without its LF.
pub fn line(short: &str) -> String {
    let parts: Vec<&str> = short.split(' ').collect();
    let [pos, reference, alt, genotype] = parts[..] else { panic!("not POS REF ALT GT: {short}") };
    format!("chr1\t{pos}\tid\t{reference}\t{alt}\t9\tPASS\tDP=3\tGT\t{genotype}")
}

/// A text of the two header lines and the records.
pub fn text(records: &[&str]) -> Vec<u8> {
    raw(records.iter().map(|record| line(record).into_bytes()))
}

/// A text of the two header lines and any lines after them.
pub fn raw(lines: impl IntoIterator<Item = Vec<u8>>) -> Vec<u8> {
    let header = [VERSION_LINE, COLUMN_LINE].map(|line| line.as_bytes().to_vec());
    all_lines(header.into_iter().chain(lines))
}

/// The lines before the records, which say what bcftools asks to be told, of a reference of so many bases.
pub fn contig_header(bases: usize) -> [Vec<u8>; 4] {
    let contig = format!("##contig=<ID=chr1,length={bases}>");
    let genotype = "##FORMAT=<ID=GT,Number=1,Type=String,Description=\"Genotype\">";
    [VERSION_LINE, &contig, genotype, COLUMN_LINE].map(|line| line.as_bytes().to_vec())
}

/// The text that lists these entries under that header. The ID of each record is `r` and its number.
pub fn contig_text(entries: &[Entry], bases: usize) -> Vec<u8> {
    let record = |(number, entry): (usize, &Entry)| {
        let string = |bytes: &[u8]| String::from_utf8(bytes.to_vec()).expect("bases");
        let Entry { pos, reference, alts, copies: [left, right] } = entry;
        let (reference, alts) = (string(reference), string(&alts.join(&b',')));
        format!("chr1\t{pos}\tr{number}\t{reference}\t{alts}\t.\t.\t.\tGT\t{left}/{right}")
            .into_bytes()
    };
    all_lines(contig_header(bases).into_iter().chain(entries.iter().enumerate().map(record)))
}

/// A text of nothing but these lines.
pub fn all_lines(lines: impl IntoIterator<Item = Vec<u8>>) -> Vec<u8> {
    let mut text = Vec::new();
    for line in lines {
        text.extend(line);
        text.push(b'\n');
    }
    text
}

/// The entry as "POS REF ALT GT".
pub fn short(entry: &Entry) -> String {
    let string = |bytes: &[u8]| String::from_utf8(bytes.to_vec()).expect("bases");
    let alts = entry.alts.join(&b',');
    let [left, right] = entry.copies;
    let (pos, reference, alts) = (entry.pos, string(&entry.reference), string(&alts));
    format!("{pos} {reference} {alts} {left}/{right}")
}

/// The text that lists these entries.
pub fn text_of(entries: &[Entry]) -> Vec<u8> {
    let shorts: Vec<String> = entries.iter().map(short).collect();
    text(&shorts.iter().map(String::as_str).collect::<Vec<_>>())
}

/// The entry of a short record.
pub fn entry(record: &str) -> Entry {
    let parts: Vec<&str> = record.split(' ').collect();
    let digit = |at: usize| usize::from(parts[3].as_bytes()[at] - b'0');
    Entry {
        pos: parts[0].parse().expect("POS"),
        reference: parts[1].as_bytes().to_vec(),
        alts: parts[2].split(',').map(|alt| alt.as_bytes().to_vec()).collect(),
        copies: [digit(0), digit(2)],
    }
}

/// A text with these records, made exactly `length` bytes long by header lines.
pub fn text_of_length(records: &[&str], length: usize) -> Vec<u8> {
    let filler = length - text(records).len();
    let mut lengths = vec![400; filler / 400 - 1];
    lengths.push(filler - 400 * lengths.len());
    let padding = lengths.iter().map(|length| {
        let mut line = vec![b'#'; 2];
        line.resize(length - 1, b'x');
        line
    });
    let records = records.iter().map(|record| line(record).into_bytes());
    let version = [VERSION_LINE.as_bytes().to_vec()];
    let column = [COLUMN_LINE.as_bytes().to_vec()];
    all_lines(version.into_iter().chain(padding).chain(column).chain(records))
}
