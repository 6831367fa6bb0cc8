//! The field ALT: rows 20 to 23 of request a, tried where row 10 was.
//!
//! The whole of the first allele comes before the second, and each is told at the byte of the line, from 0, where it begins.

use crate::bases::{is_base, same};
use crate::part::{Part, COMMA};
use crate::record::ALLELE_MOST;
use crate::refusal::*;

/// The one or two alleles of the field `alt` of `line`, or the first row that holds on it. `replaced` is REF.
pub fn read(text: &[u8], line: Part, alt: Part, replaced: &[u8]) -> Result<Vec<Part>, Row> {
    let at = |allele: Part, number| Row { number, place: (allele.start - line.start) as u32 };
    // A comma behind the first one is a byte of the second allele.
    let (first, second) = alt.split_once(text, COMMA);
    judge(first.of(text), replaced).map_err(|row| at(first, row))?;
    let Some(second) = second else { return Ok(vec![first]) };
    judge(second.of(text), replaced).map_err(|row| at(second, row))?;
    if same(second.of(text), first.of(text)) {
        return Err(at(second, EQUAL_ALTS));
    }
    Ok(vec![first, second])
}

/// Rows 20, 21 and 22, which concern one allele.
fn judge(allele: &[u8], replaced: &[u8]) -> Result<(), u32> {
    if allele.is_empty() || allele.len() > ALLELE_MOST {
        return Err(WRONG_SIZE);
    }
    if !allele.iter().all(|&byte| is_base(byte)) {
        return Err(WRONG_BYTE);
    }
    if same(allele, replaced) {
        return Err(ALT_IS_REF);
    }
    Ok(())
}
