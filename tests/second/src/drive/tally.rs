//! What a run came upon: how often each kind was answered, and where the answers differ.

use super::case::{Case, Told};
use super::draw::Asked;
use super::kind::{kinds, kinds_beside, Kind};
use super::room::OF_MARKS;
use std::collections::BTreeMap;
use std::fmt::{self, Display};

/// Each kind is to be answered at least once in so many calls; or in so many where bytes are changed,
/// which does not aim at any.
const ONCE_IN: u64 = 2_000;
const ONCE_IN_MUTATED: u64 = 100_000;

/// What overlap does is to come up more often: in a call that marks, and where bytes are changed.
const OVERLAP_ONCE_IN: u64 = 60;
const OVERLAP_ONCE_IN_MUTATED: u64 = 5_000;

/// So many differences are shown, the smallest ones.
const SHOWN: usize = 3;

/// So many bytes of a lent buffer are shown, and so many lines of a text.
const BYTES_SHOWN: usize = 4_000;
const LINES_SHOWN: usize = 40;

#[derive(Default)]
pub struct Tally {
    pub cases: u64,
    pub differences: u64,
    /// How often each kind was answered, and each of those that lower case and overlap add.
    kinds: BTreeMap<Kind, u64>,
    /// Of differences one behind the other only the first: the others may follow from it, where a
    /// buffer is lent as it was left.
    smallest: Vec<Difference>,
    last_differed: bool,
}

struct Difference {
    number: u64,
    case: Case,
    told: Option<Told>,
}

impl Tally {
    pub fn note(&mut self, case: Case, told: Option<Told>) {
        let number = self.cases;
        self.cases += 1;
        for kind in Kind::beside(&case).into_iter().chain([Kind::of(&case)]) {
            *self.kinds.entry(kind).or_default() += 1;
        }
        let is_first = !self.last_differed;
        self.last_differed = told.as_ref() != Some(&case.expected);
        self.differences += u64::from(self.last_differed);
        if !self.last_differed || !is_first {
            return;
        }
        self.smallest.push(Difference { number, case, told });
        self.smallest.sort_by_key(|difference| difference.case.size());
        self.smallest.truncate(SHOWN);
    }

    /// The kinds of the call that were answered too rarely for so many calls to have tried them, and what lower case and overlap
    /// did too rarely.
    pub fn rare_kinds(&self, asked: Asked) -> Vec<String> {
        let kinds = kinds(asked);
        let count = |kind: &Kind| self.kinds.get(kind).copied().unwrap_or(0);
        let all: u64 = kinds.iter().map(count).sum();
        let [once_in, overlap_once_in] = match asked {
            Asked::Mutated => [ONCE_IN_MUTATED, OVERLAP_ONCE_IN_MUTATED],
            _ => [ONCE_IN, OVERLAP_ONCE_IN],
        };
        let is_rare = |kind: &&Kind| match OF_MARKS.contains(&kind.what) {
            true => count(kind) < all / overlap_once_in,
            false => count(kind) < all / once_in,
        };
        kinds.iter().chain(&kinds_beside(asked)).filter(is_rare).map(Kind::to_string).collect()
    }
}

impl Display for Tally {
    fn fmt(&self, out: &mut fmt::Formatter) -> fmt::Result {
        for difference in &self.smallest {
            writeln!(out, "{difference}")?;
        }
        let kinds: Vec<String> =
            self.kinds.iter().map(|(kind, count)| format!("{kind} {count}")).collect();
        let kinds = kinds.join(", ");
        writeln!(
            out,
            "answers by call, and by number/list and allele of ALT where refused, and what lower case and overlap did: {kinds}"
        )
    }
}

impl Display for Difference {
    fn fmt(&self, out: &mut fmt::Formatter) -> fmt::Result {
        let Difference { number, case, told } = self;
        writeln!(out, "case {number}: {}, numbers {:?}", Kind::of(case).call, case.numbers())?;
        for (what, lent) in case.lent() {
            writeln!(out, "  {what}, {} bytes: {}", lent.len(), shown(what, &lent))?;
        }
        let expected = &case.expected;
        writeln!(out, "  expected {:?}", expected.answer)?;
        let Some(told) = told else { return writeln!(out, "  the driver ended without an answer") };
        writeln!(out, "  answered {:?}, bytes changed: {}", told.answer, told.changed)?;
        for (expected, told) in expected.left.iter().zip(&told.left) {
            let mut pairs = expected.iter().zip(told);
            let Some(at) = pairs.position(|(expected, told)| expected != told) else { continue };
            let part = |left: &[u8]| left[at..left.len().min(at + 40)].escape_ascii().to_string();
            writeln!(out, "  expected to be left from byte {at} on: {}", part(expected))?;
            writeln!(out, "  left there: {}", part(told))?;
        }
        Ok(())
    }
}

/// A text by its lines, a plan and entries by their records, and anything else by its bytes.
fn shown(what: &str, bytes: &[u8]) -> String {
    let cut = if bytes.len() > BYTES_SHOWN { " .." } else { "" };
    let first = &bytes[..bytes.len().min(BYTES_SHOWN)];
    let number = |part: &[u8]| u32::from_le_bytes(part.try_into().expect("four bytes"));
    match what {
        "text" | "first" | "second" => {
            let lines = first.split_inclusive(|byte| *byte == b'\n').take(LINES_SHOWN);
            lines.map(|line| format!("\n    {}", line.escape_ascii())).collect()
        }
        "plan" => {
            let records = bytes.chunks(8).take(LINES_SHOWN);
            records.map(|part| format!(" {}+{}", number(&part[..4]), number(&part[4..]))).collect()
        }
        "entries" => {
            let records = bytes.chunks(16).take(LINES_SHOWN);
            records
                .map(|part| format!(" {:?}", [0, 4, 8, 12].map(|at| number(&part[at..at + 4]))))
                .collect()
        }
        _ => format!("{}{cut}", first.escape_ascii()),
    }
}
