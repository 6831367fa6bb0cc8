//! The card's C library for Rust: slices in, a result out. It links with libcard_abi.a, which is x86-64.
//!
//! include/card.h says what each call means and what it asks of its caller. Slices keep all of that by themselves: a slice's
//! pointer is never null and is valid for its length, and nothing else reads or writes what is lent as `&mut`. So the functions
//! of this file are safe, and no others call the library.

use std::fmt;

/// The version of include/card.h that this file follows (CARD_VERSION).
const VERSION: u32 = 3 << 16;

/// The room that a plan, a buffer of marks and one of entries must have: so many clusters, bytes, entries (CARD_LEAST).
const LEAST: usize = 1024;

/// Each refusal in words: number, name, what is wrong, what to do.
const REFUSALS: &str = include_str!("../../docs/refusals.tsv");

/// Two lists, the bases that they are on, without LF, and the name that CHROM of every record has to be.
#[derive(Clone, Copy)]
pub struct Lists<'a> {
    pub reference: &'a [u8],
    pub name: &'a [u8],
    pub first: &'a [u8],
    pub second: &'a [u8],
}

/// Where an entry stands: its list, 1 or 2; its number there, from 0; its line in the list's text, from 1; and its cluster, from
/// 0 (card_entry).
#[repr(C)]
#[derive(Clone, Copy, Debug, Default, PartialEq, Eq)]
pub struct Entry {
    pub list: u32,
    pub entry: u32,
    pub line: u32,
    pub cluster: u32,
}

/// Why a call is refused: a number of card_refusal; the list and the line that it is about, 0 where it is about none; and the place,
/// the byte in that line, from 0, where the allele of ALT at fault begins, 0 where it is about no allele of ALT.
#[repr(C)]
#[derive(Clone, Copy, Debug, PartialEq, Eq)]
pub struct Refusal {
    pub number: u32,
    pub list: u32,
    pub line: u32,
    pub place: u32,
}

/// Where it is, and what is wrong there.
impl fmt::Display for Refusal {
    fn fmt(&self, f: &mut fmt::Formatter) -> fmt::Result {
        let Refusal { number, list, line, place } = self;
        if *list > 0 {
            write!(f, "list {list}: ")?;
        }
        if *line > 0 {
            write!(f, "line {line}: ")?;
        }
        if *place > 0 {
            write!(f, "at byte {place}, counted from 0: ")?;
        }
        let row = REFUSALS.lines().find(|row| row.starts_with(&format!("{number}\t")));
        f.write_str(row.and_then(|row| row.split('\t').nth(2)).unwrap_or_default())
    }
}

/// Whether the library linked does what this file says: its major part is the same, its minor part not lower (CARD_FITS).
pub fn fits() -> bool {
    // SAFETY: the call takes nothing.
    let linked = unsafe { library::card_version() };
    linked >> 16 == VERSION >> 16 && linked & 0xffff >= VERSION & 0xffff
}

/// The entries of both lists in merged order, each with its mark: `+`, or `-` where it matches with its two copies exchanged;
/// `0` where it does not match; `?` where its cluster is undecided.
pub fn marked(lists: &Lists) -> Result<Vec<(Entry, u8)>, Refusal> {
    let Lists { reference, name, first, second } = lists;
    let mut plan = [[0; 2]; LEAST];
    let mut marks = [0; LEAST];
    let mut entries = [Entry::default(); LEAST];
    // SAFETY: each pointer and length are those of a slice, and only `plan` and `marks`, which overlap no other, are written.
    let all = unsafe {
        library::card_mark_all(
            reference.as_ptr(),
            reference.len(),
            name.as_ptr(),
            name.len(),
            first.as_ptr(),
            first.len(),
            second.as_ptr(),
            second.len(),
            plan.as_mut_ptr(),
            plan.len(),
            marks.as_mut_ptr(),
            marks.len(),
        )
    };
    all.told.answered()?;
    // SAFETY: each pointer and length are those of a slice, and only `entries`, which no other slice overlaps, is written.
    let merged = unsafe {
        library::card_entries(
            reference.as_ptr(),
            reference.len(),
            name.as_ptr(),
            name.len(),
            first.as_ptr(),
            first.len(),
            second.as_ptr(),
            second.len(),
            entries.as_mut_ptr(),
            entries.len(),
        )
    };
    merged.told.answered()?;
    Ok(entries.into_iter().zip(marks).take(merged.value as usize).collect())
}

impl Refusal {
    /// The refusal, unless its number says that the call was answered.
    fn answered(self) -> Result<(), Refusal> {
        if self.number == 0 {
            Ok(())
        } else {
            Err(self)
        }
    }
}

/// The calls as include/card.h declares them.
mod library {
    use super::{Entry, Refusal};

    /// What card_entries answers (card_answer): its value is the number of entries.
    #[repr(C)]
    pub struct Answer {
        pub told: Refusal,
        pub value: u32,
    }

    /// What card_mark_all answers (card_all_marked): the number of clusters, and the sum of the scores of those decided.
    #[repr(C)]
    pub struct AllMarked {
        pub told: Refusal,
        _clusters: u32,
        _score: u32,
    }

    /// A cluster: its first entry in merged order, from 0, and its number of entries (card_cluster).
    type Cluster = [u32; 2];

    #[link(name = "card_abi", kind = "static")]
    extern "C" {
        pub fn card_version() -> u32;

        pub fn card_mark_all(
            reference: *const u8,
            reference_count: usize,
            name: *const u8,
            name_count: usize,
            first: *const u8,
            first_count: usize,
            second: *const u8,
            second_count: usize,
            plan: *mut Cluster,
            plan_count: usize,
            marks: *mut u8,
            marks_count: usize,
        ) -> AllMarked;

        pub fn card_entries(
            reference: *const u8,
            reference_count: usize,
            name: *const u8,
            name_count: usize,
            first: *const u8,
            first_count: usize,
            second: *const u8,
            second_count: usize,
            entries: *mut Entry,
            entries_count: usize,
        ) -> Answer;
    }
}
