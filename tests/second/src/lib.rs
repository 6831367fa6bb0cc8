//! The comparison card, written a second time from document 01, requests a, b, c and d and include/card.h alone.
//!
//! It exists to be compared with: each rule stands once, in document 01's words, and the two places
//! that matter most, the best pair and the normal form, stand twice, by definition and by a search
//! that is quick. The tests hold the two ways against each other.
//!
//! - the calls: `card` (plan, mark, mark_all, count, normal), `allele`, `entries` (where each entry stands), `lot`
//!   (recall for a reagent lot)
//! - what the programs print: `programs` (compare, normalise, counts, lot_report), `report` (the table of a lot)
//! - what is turned away: `refusal`
//! - reading: `bases` (which bytes are equal), `reference`, `part`, `entry`, `alt`, `record`, `list`
//! - the normal form: `normal_form` (definition), `normal_loop` (shift and trim), `written` (the text)
//! - matching: `choice`, `donor`, `merged`, `best` (every pair of choices), `best_pruned`
//! - clusters: `gap` (where to cut), `clusters`, `counts` (what marks count)
//!
//! Beside the rules: `drawn` (what is drawn at random for tests), `drive` (drawn cases, called in
//! the card's C library and held to the calls here) and `whole` (programs, run in drawn folders and held
//! to what is printed here).

#![forbid(unsafe_code)]

pub mod allele;
pub mod alt;
pub mod bases;
pub mod best;
pub mod best_pruned;
pub mod card;
pub mod choice;
pub mod clusters;
pub mod counts;
pub mod donor;
pub mod drawn;
pub mod drive;
pub mod entries;
pub mod entry;
pub mod gap;
pub mod list;
pub mod lot;
pub mod merged;
pub mod normal_form;
pub mod normal_loop;
pub mod part;
pub mod programs;
pub mod record;
pub mod reference;
pub mod refusal;
pub mod report;
pub mod whole;
pub mod written;

pub use allele::{allele, Shown};
pub use card::{count, mark, mark_all, normal, plan, Marked};
pub use clusters::Cluster;
pub use counts::Counts;
pub use entries::{entries, Listed};
pub use entry::Entry;
pub use list::{read, List};
pub use lot::{lot, Lot, Run, Share};
pub use programs::{compare, counts, lot_report, normalise};
pub use refusal::Refusal;
