//! What is lent, broken: faults of chosen rows, blind damage, a wrong size, another name.

use crate::drawn::damage::damage;
use crate::drawn::fault::{fault, ROWS};
use crate::drawn::list::Drawn;
use crate::drawn::random::Random;
use crate::drawn::sizes::sized_text;

/// No text is longer. Row 3 holds from 65,537 bytes on, and more is no other case.
const TEXT_MOST: usize = 70_000;

/// The text of the list with one to three faults or damages, or of another size.
pub fn spoiled_text(random: &mut Random, mut list: Drawn) -> Vec<u8> {
    if random.once_in(200) {
        return sized_text(random, &mut list);
    }
    let times = random.between(1, 3);
    if !random.once_in(3) {
        for _ in 0..times {
            let row = *random.pick(&ROWS);
            fault(random, &mut list, row);
        }
        return list.text();
    }
    let mut text = list.text();
    for _ in 0..times {
        damage(random, &mut text);
    }
    text.truncate(TEXT_MOST);
    text
}

/// A byte that is no base, mostly; else none at all, or one base fewer or more.
pub fn spoil_reference(random: &mut Random, reference: &mut Vec<u8>) {
    let last = reference.len().saturating_sub(1);
    let place = *random.pick(&[0, last, last / 2]);
    match random.below(8) {
        0 => reference.clear(),
        1 => drop(reference.pop()),
        2 => reference.push(b'A'),
        _ if reference.is_empty() => {}
        _ => reference[place] = *random.pick(b"UR.-*\n\0 \xff@BDFHMOSu`bdfhmrsx!\x01\xc1\xe1\xee"),
    }
}

/// A name that is no record's CHROM, mostly.
pub fn other_name(random: &mut Random) -> Vec<u8> {
    random.pick(&[&b""[..], b"chr1\t", b"chr", b"\n", b"chr1\t1", b"CHR1", b"Chr1"]).to_vec()
}
