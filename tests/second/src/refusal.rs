//! What is turned away: the table of document 01 and the rows of requests a and d, one name a row.

/// The four numbers that a refused call answers with, and its only effect.
#[derive(Clone, Copy, Debug, PartialEq, Eq)]
pub struct Refusal {
    pub number: u32,
    pub list: u32,
    pub line: u32,
    /// The byte of the line, from 0, where the allele at fault begins; 0 in each row but 20 to 23.
    pub place: u32,
}

pub const WRONG_REFERENCE: u32 = 1;
pub const SMALL_ROOM: u32 = 2;
pub const WRONG_TEXT: u32 = 3;
pub const LONG_LINE: u32 = 4;
pub const WRONG_HEADER: u32 = 5;
pub const NOT_TEN_FIELDS: u32 = 6;
pub const WRONG_CHROM: u32 = 7;
pub const WRONG_POS: u32 = 8;
pub const WRONG_REF: u32 = 9;
pub const WRONG_GENOTYPE: u32 = 11;
pub const GENOTYPE_ZERO: u32 = 12;
pub const NOT_THE_REFERENCE: u32 = 13;
pub const POS_FALLS: u32 = 14;
pub const ONE_RECORD_TOO_MANY: u32 = 15;
pub const NO_CLUSTER: u32 = 16;
pub const NOT_THE_PLAN: u32 = 17;
pub const NO_ALLELE: u32 = 18;
pub const WRONG_SIZE: u32 = 20;
pub const WRONG_BYTE: u32 = 21;
pub const ALT_IS_REF: u32 = 22;
pub const EQUAL_ALTS: u32 = 23;
pub const WRONG_RUNS: u32 = 30;
pub const LARGE_COUNTS: u32 = 31;

/// In the runs of a lot, number 6 is a line that is not a name and six numbers.
pub const NOT_A_RUN: u32 = NOT_TEN_FIELDS;

/// A row that holds on a line, and its place there.
#[derive(Clone, Copy, Debug, PartialEq, Eq)]
pub struct Row {
    pub number: u32,
    pub place: u32,
}

/// A row that does not concern an allele of ALT has place 0.
impl From<u32> for Row {
    fn from(number: u32) -> Row {
        Row { number, place: 0 }
    }
}

impl Refusal {
    /// Rows 1, 2, 16, 17, 18, 30 and 31 concern the call: list, line and place are 0.
    pub fn of_call(number: u32) -> Refusal {
        Refusal { number, list: 0, line: 0, place: 0 }
    }

    /// Row 3 concerns a list's whole text: line and place are 0.
    pub fn of_text(number: u32, list: u32) -> Refusal {
        Refusal { number, list, line: 0, place: 0 }
    }

    /// Rows 4 to 15 and 20 to 23 concern one line, counted from 1.
    pub fn of_line(row: impl Into<Row>, list: u32, line: u32) -> Refusal {
        let Row { number, place } = row.into();
        Refusal { number, list, line, place }
    }
}
