//! What the tests share.
//!
//! - `calls` makes calls and watches the lent memory
//! - `refused` makes every call refuse a text, `rows` says when a row of the table holds
//! - `searched` makes both searches
//! - `seen` counts what the random cases came upon
//! - what is drawn at random comes from the library, which draws it for `drive` too

// Each test file is a program of its own and uses its part of this.
#![allow(dead_code, unused_imports)]

pub mod calls;
pub mod refused;
pub mod rows;
pub mod searched;
pub mod seen;

pub use second::drawn::{damage, lists, random, world};
