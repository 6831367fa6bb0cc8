//! Drives the card's C library with drawn cases and holds each answer, and all memory that was lent,
//! to this package's own.
//!
//! - `case` is one call with all that is lent to it, and what it must come to
//! - `expected` is what this package answers to it and leaves
//! - `draw` draws case after case from a seed
//! - `frame` is what is sent to the driver for a case, and what it tells
//! - `pipe` sends the cases to the driver and takes its answers
//! - `kind` says what kind of answer a case has, with `answered` and `large` for what was done, and `at_allele` for the
//!   allele that a refusal is told at; `lower_case` says what lower case does in it, with `by_bytes` for what it decides, and `room`
//!   what overlapping entries do
//! - `tally` counts the kinds that were answered and keeps the smallest differences

mod answered;
pub mod at_allele;
mod by_bytes;
pub mod case;
pub mod draw;
mod expected;
pub mod frame;
pub mod kind;
mod large;
pub mod lower_case;
pub mod pipe;
pub mod room;
pub mod tally;
