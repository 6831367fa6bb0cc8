//! Lists and references of the sizes where the rules change: none, one, the most and one more.

use super::list::{any_bases, Drawn};
use super::random::Random;
use super::repeats::repeat;

const REFERENCES: [usize; 6] = [0, 1, 65_534, 65_535, 65_536, 70_000];
const TEXTS: [usize; 7] = [0, 1, 65_535, 65_536, 65_536, 65_537, 70_000];
const RECORDS: [usize; 4] = [511, 512, 513, 514];

/// A list on a reference of one of these sizes, which may be none.
pub fn sized_reference(random: &mut Random) -> Drawn {
    let length = *random.pick(&REFERENCES);
    let reference = repeat(random, length);
    let count = if length == 0 { 0 } else { random.below(6) };
    Drawn::on(random, reference, count)
}

/// A list of one of these numbers of records: the shortest of a few is repeated.
pub fn sized_list(random: &mut Random) -> Drawn {
    let reference = any_bases(random, 1, 200);
    let mut list = Drawn::on(random, reference, 4);
    let number = (0..4).min_by_key(|number| list.records[*number].concat().len());
    let number = number.expect("four records");
    let copies = *random.pick(&RECORDS) - list.records.len();
    let copies = vec![list.records[number].clone(); copies];
    list.records.splice(number..number, copies);
    list
}

/// The list's text made one of these sizes, by more header lines or by cutting its end off.
pub fn sized_text(random: &mut Random, list: &mut Drawn) -> Vec<u8> {
    let length = *random.pick(&TEXTS);
    let longest = random.between(8, 1_000);
    let mut missing = length.saturating_sub(list.text().len());
    // Each line with its LF has at least the three bytes of an empty one.
    while missing >= 3 {
        let line = if missing <= longest { missing } else { longest.min(missing - 3) };
        list.header.insert(1, [b"##", &vec![b'x'; line - 3][..]].concat());
        missing -= line;
    }
    let mut text = list.text();
    text.truncate(length);
    text
}
