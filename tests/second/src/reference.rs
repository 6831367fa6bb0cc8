//! The reference: 1 to 65,535 bytes, each a base.

use crate::bases::{folded, is_base};
use crate::refusal::{Refusal, WRONG_REFERENCE};

/// The longest reference, and so the highest POS.
pub const REFERENCE_MOST: usize = 65_535;

/// The folded bases; or row 1: the reference's length or a byte of it is wrong.
pub fn read(reference: &[u8]) -> Result<Vec<u8>, Refusal> {
    let length_fits = (1..=REFERENCE_MOST).contains(&reference.len());
    if length_fits && reference.iter().all(|&byte| is_base(byte)) {
        Ok(folded(reference))
    } else {
        Err(Refusal::of_call(WRONG_REFERENCE))
    }
}
