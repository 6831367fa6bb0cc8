//! What is drawn at random, for the tests of this package and for `drive`.
//!
//! - `random` gives numbers from a seed, `lists` makes texts of short records
//! - `world` draws small references with two lists, of which `rewritten` makes the second from the first, or `opposite`
//!   draws both, with entries that overlap on the same copy and on opposite ones
//! - `repeats` draws repeats and entries in them, `large` clusters with long alleles and on long stretches
//! - `list` draws one list in all its variety, `sizes` one of the sizes where the rules change, `pairs`
//!   two lists on one reference; `masked` puts bases of these into lower case, `cased` all bases of a full card
//! - `fault` breaks a chosen row of the table in such a list, with `false_alts` for those on ALT, `damage` breaks
//!   any text anywhere, `mutate` changes bytes of anything

pub mod cased;
pub mod damage;
pub mod false_alts;
pub mod fault;
pub mod large;
pub mod list;
pub mod lists;
pub mod masked;
pub mod mutate;
pub mod opposite;
pub mod pairs;
pub mod random;
pub mod repeats;
pub mod rewritten;
pub mod sizes;
pub mod world;
