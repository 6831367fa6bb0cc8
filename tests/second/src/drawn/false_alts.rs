//! Faults of ALT: each of rows 20 to 22 at the first and at the second allele, and row 23. Where the rest of the line is right, the
//! fault asked for is the one that is told, whatever the second allele is where the first is at fault.

use super::list::{any_bases, ALLELE_MOST};
use super::masked::{in_another_case, write};
use super::random::Random;
use crate::bases::same;

/// Bytes that are no base: of letters those beside one, and of other bytes those with a bit of one changed too. A comma is none
/// either, but only in a second allele.
const FALSE: &[u8] = b".*RUXZruxz<>[]:;/|0 -\r\0@BDFHMOS`bdfhmos!#'4\x01\x0e\xc1\xe1\xee\x7f\xff";
const FALSE_WORDS: [&[u8]; 10] =
    [b".", b"*", b"u", b"nr", b"A ", b" a", b"<DEL>", b"A[chr1:3[", b"a\0", b"A\r"];

/// The field ALT for this REF, with a fault of row 20 to 23. Row 23 is always told at the second allele. Rows 22 and 23 are of
/// equal bases: `is_recased` says whether in another case.
pub fn false_alts(
    random: &mut Random,
    reference: &[u8],
    row: u32,
    is_second: bool,
    is_recased: bool,
) -> Vec<u8> {
    let good = good_allele(random, reference);
    if row == 23 {
        let again = if is_recased { in_another_case(random, &good) } else { good.clone() };
        return [&good[..], b",", &again].concat();
    }
    let mut wrong = false_allele(random, reference, row, is_second);
    if row == 22 && is_recased {
        wrong = in_another_case(random, &wrong);
    }
    if is_second {
        return [&good[..], b",", &wrong].concat();
    }
    let any = random.between(20, 22) as u32;
    match random.below(6) {
        // A single allele that is empty would make an empty field.
        0..=2 if !wrong.is_empty() => wrong,
        3 => [&wrong[..], b",", &false_allele(random, reference, any, true)].concat(),
        4 => [&wrong[..], b",", &wrong].concat(),
        _ => [&wrong[..], b",", &good].concat(),
    }
}

/// Another than REF: short, or of the most bases, or REF with one base changed, or more, or fewer.
fn good_allele(random: &mut Random, reference: &[u8]) -> Vec<u8> {
    loop {
        let mut allele = match random.below(6) {
            0 => any_bases(random, ALLELE_MOST, ALLELE_MOST),
            1..=3 => any_bases(random, 1, 6),
            _ if reference.is_empty() => vec![b'A'], // An earlier fault emptied it.
            _ => reference.to_vec(),
        };
        let base = *random.pick(b"ACGTN");
        match random.below(4) {
            0 | 1 if allele.len() < ALLELE_MOST => allele.push(base),
            2 if allele.len() > 1 => drop(allele.pop()),
            _ => allele[0] = base,
        }
        if !same(&allele, reference) {
            let lower_in = *random.pick(&[usize::MAX, usize::MAX, 1, 2]);
            write(&mut allele, |_| random.once_in(lower_in));
            return allele;
        }
    }
}

/// An allele on which row 20, 21 or 22 is the first that holds.
fn false_allele(random: &mut Random, reference: &[u8], row: u32, is_second: bool) -> Vec<u8> {
    let other = match is_second && random.once_in(4) {
        true => b',',
        false => *random.pick(FALSE),
    };
    match row {
        20 => {
            let length =
                *random.pick(&[0, 0, ALLELE_MOST + 1, ALLELE_MOST + 1, ALLELE_MOST + 2, 200]);
            match random.below(3) {
                0 => vec![other; length],
                _ => any_bases(random, length, length),
            }
        }
        21 if random.once_in(3) => random.pick(&FALSE_WORDS).to_vec(),
        21 => {
            let mut allele = good_allele(random, reference);
            let place = *random.pick(&[0, allele.len() / 2, allele.len() - 1]);
            allele[place] = other;
            allele
        }
        _ => reference.to_vec(),
    }
}
