//! A list text: row 3, then the lines from the top, on each rows 4, 5, 15, those of a record, and 14.

use crate::entry::Entry;
use crate::part::{Part, LF, TAB};
use crate::record::{self, Record};
use crate::refusal::*;

pub const TEXT_MOST: usize = 65_536;
pub const LINE_MOST: usize = 1_024;
pub const RECORDS_MOST: usize = 512;

const VERSION_LINE: &[u8] = b"##fileformat=VCFv4.2";
const COLUMNS: &[u8] = b"#CHROM\tPOS\tID\tREF\tALT\tQUAL\tFILTER\tINFO\tFORMAT\t";

/// An accepted list.
#[derive(Clone, Debug, PartialEq, Eq)]
pub struct List {
    /// The header lines with the column line and its LF: the text before the first record.
    pub header: Part,
    pub records: Vec<Record>,
}

impl List {
    pub fn entries(&self) -> Vec<Entry> {
        let entries = self.records.iter().map(|record| record.entry.clone());
        entries.collect()
    }
}

/// Reads list `list` (1 or 2) of a call, or gives the first refusal found in it.
pub fn read(reference: &[u8], name: &[u8], list: u32, text: &[u8]) -> Result<List, Refusal> {
    if text.len() > TEXT_MOST || text.last() != Some(&LF) {
        return Err(Refusal::of_text(WRONG_TEXT, list));
    }
    let whole = Part { start: 0, length: text.len() - 1 };
    let mut reader = Reader { reference, name, text, header: None, records: Vec::new() };
    let mut line = 1;
    for part in whole.split(text, LF) {
        let taken = reader.take(part, line == 1);
        taken.map_err(|row| Refusal::of_line(row, list, line))?;
        line += 1;
    }
    match reader.header {
        Some(header) => Ok(List { header, records: reader.records }),
        None => Err(Refusal::of_line(WRONG_HEADER, list, line)),
    }
}

/// What was read of the lines so far; `header` is there once the column line is.
struct Reader<'a> {
    reference: &'a [u8],
    name: &'a [u8],
    text: &'a [u8],
    header: Option<Part>,
    records: Vec<Record>,
}

impl Reader<'_> {
    /// Takes the next line, or gives the first row that holds on it.
    fn take(&mut self, line: Part, is_first: bool) -> Result<(), Row> {
        if line.length > LINE_MOST {
            return Err(LONG_LINE.into());
        }
        match self.header {
            None => self.take_header(line, is_first),
            Some(_) => self.take_record(line),
        }
    }

    fn take_header(&mut self, line: Part, is_first: bool) -> Result<(), Row> {
        let bytes = line.of(self.text);
        if is_first && bytes != VERSION_LINE {
            return Err(WRONG_HEADER.into());
        }
        if bytes.starts_with(b"##") {
            return Ok(());
        }
        if !is_column_line(bytes) {
            return Err(WRONG_HEADER.into());
        }
        self.header = Some(Part { start: 0, length: line.end() + 1 });
        Ok(())
    }

    fn take_record(&mut self, line: Part) -> Result<(), Row> {
        if line.of(self.text).starts_with(b"#") {
            return Err(WRONG_HEADER.into());
        }
        if self.records.len() == RECORDS_MOST {
            return Err(ONE_RECORD_TOO_MANY.into());
        }
        let record = record::read(self.reference, self.name, self.text, line)?;
        if let Some(before) = self.records.last() {
            if record.entry.pos < before.entry.pos {
                return Err(POS_FALLS.into());
            }
        }
        self.records.push(record);
        Ok(())
    }
}

/// The nine fixed names, then a tenth field that is not empty.
fn is_column_line(bytes: &[u8]) -> bool {
    match bytes.strip_prefix(COLUMNS) {
        Some(tenth) => !tenth.is_empty() && !tenth.contains(&TAB),
        None => false,
    }
}
