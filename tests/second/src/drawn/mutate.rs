//! Changes by bytes, to anything that is lent. They know lines, cells of lines and bytes that mean something,
//! and no other rule.

use super::masked::in_another_case;
use super::random::Random;
use std::ops::Range;

/// Bytes that mean something somewhere, and some that mean nothing anywhere.
const TELLING: &[u8] = b"\t\n#,:/|.0123456789ACGTNacgtn \r\0\x01\x7f\x80\xff";

/// Pieces that single bytes seldom make.
const PIECES: [&[u8]; 12] = [
    b"##", b"\n#", b"\n\n", b"\t\t", b"GT:", b"0/0", b"0|0", b"1|2", b"A,C", b"65535", b"65536",
    b"00",
];

/// Nothing becomes longer: row 3 holds from 65,537 bytes on, row 1 from 65,536.
const LENGTH_MOST: usize = 70_000;

/// One change somewhere, into which a part of `other` may come.
pub fn mutate(random: &mut Random, bytes: &mut Vec<u8>, other: &[u8]) {
    let telling = *random.pick(TELLING);
    if bytes.is_empty() {
        return bytes.push(telling);
    }
    let place = any_place(random, bytes);
    let part = part(random, bytes);
    let piece = *random.pick(&PIECES);
    match random.below(50) {
        0..=2 => bytes[place] ^= 1 << random.below(8),
        3..=8 => bytes[place] = telling,
        9..=13 => change_a_digit(random, bytes, place),
        14..=17 => bytes.insert(place, telling),
        18 | 19 => drop(bytes.remove(place)),
        20 | 21 => drop(bytes.drain(part)),
        22..=25 => repeat(random, bytes, part),
        26 | 27 => put(random, bytes, place, piece),
        28..=30 => put_part_of(random, bytes, part.start, other),
        31..=43 => change_a_cell(random, bytes, place),
        44..=48 => change_case(random, &mut bytes[part]),
        _ => bytes.truncate(part.start),
    }
    bytes.truncate(LENGTH_MOST);
}

/// Any place, mostly one behind the last line that begins with `#`, where the records stand.
fn any_place(random: &mut Random, bytes: &[u8]) -> usize {
    if random.once_in(6) {
        return random.below(bytes.len());
    }
    let header = bytes.windows(2).rposition(|pair| pair == b"\n#").map_or(0, |end| end + 1);
    let end = bytes[header..].iter().position(is_end).map_or(0, |end| header + end);
    random.between(end, bytes.len() - 1)
}

fn is_end(byte: &u8) -> bool {
    *byte == b'\n'
}

/// A few bytes, or a whole line with its LF.
fn part(random: &mut Random, bytes: &[u8]) -> Range<usize> {
    let place = any_place(random, bytes);
    if random.once_in(2) {
        return place..bytes.len().min(place + random.between(1, 8));
    }
    let start = bytes[..place].iter().rposition(is_end).map_or(0, |end| end + 1);
    let end = bytes[place..].iter().position(is_end).map_or(bytes.len(), |end| place + end + 1);
    start..end
}

/// The next digit from the place on becomes another, of which 0, 1 and 2 are likeliest.
fn change_a_digit(random: &mut Random, bytes: &mut [u8], place: usize) {
    let digit = bytes[place..].iter_mut().find(|byte| byte.is_ascii_digit());
    if let Some(digit) = digit {
        *digit = *random.pick(b"0001122345678999");
    }
}

/// Of a few bytes, or of one, letters get the other case.
fn change_case(random: &mut Random, part: &mut [u8]) {
    let place = random.below(part.len());
    let length = *random.pick(&[1, part.len() - place]);
    let part = &mut part[place..place + length];
    part.copy_from_slice(&in_another_case(random, part));
}

/// The part stands again behind itself: once, or so often that a line is the 513th record, that a line
/// is too long, or that all is too long; or just not.
fn repeat(random: &mut Random, bytes: &mut Vec<u8>, part: Range<usize>) {
    let is_line = is_end(&bytes[part.end - 1]);
    let times = match random.below(100) {
        0..=9 if is_line => random.between(510, 513),
        0..=9 => random.between(900, 1_100).div_ceil(part.len()),
        99 => LENGTH_MOST.div_ceil(part.len()),
        _ => 1,
    };
    let again = bytes[part.clone()].repeat(times);
    bytes.splice(part.end..part.end, again);
}

/// Puts the piece between the bytes, or in the place of as many of them.
fn put(random: &mut Random, bytes: &mut Vec<u8>, place: usize, piece: &[u8]) {
    let replaced = if random.once_in(2) { piece.len() } else { 0 };
    let end = bytes.len().min(place + replaced);
    bytes.splice(place..end, piece.iter().copied());
}

/// A cell of the line at the place, which a TAB or a comma ends, comes in the place of one of the next two, or behind it or itself with a
/// comma between; or a comma alone stands before or behind it; or it becomes 64 bytes long, or one more. Its letters may have another
/// case then.
fn change_a_cell(random: &mut Random, bytes: &mut Vec<u8>, place: usize) {
    let cells = cells(bytes, place);
    let number = random.below(cells.len());
    let next = cells[(cells.len() - 1).min(number + random.between(1, 2))].clone();
    let Range { start, end } = cells[number];
    let mut cell = bytes[start..end].to_vec();
    if random.once_in(2) {
        cell = in_another_case(random, &cell);
    }
    let with_comma = [b",", &cell[..]].concat();
    let long = cell.iter().copied().cycle().take(random.between(64, 65)).collect();
    let (range, put) = match random.below(9) {
        0 | 1 => (next, cell),
        2 | 3 => (next.end..next.end, with_comma),
        4 | 5 => (end..end, with_comma),
        6 => (start..start, b",".to_vec()),
        7 => (end..end, b",".to_vec()),
        _ => (start..end, long),
    };
    bytes.splice(range, put);
}

/// The cells of the line at the place.
fn cells(bytes: &[u8], place: usize) -> Vec<Range<usize>> {
    let mut start = bytes[..place].iter().rposition(is_end).map_or(0, |end| end + 1);
    let line = bytes[start..].split(is_end).next().unwrap_or_default();
    let cell = |cell: &[u8]| {
        let range = start..start + cell.len();
        start = range.end + 1;
        range
    };
    line.split(|byte| b"\t,".contains(byte)).map(cell).collect()
}

fn put_part_of(random: &mut Random, bytes: &mut Vec<u8>, place: usize, other: &[u8]) {
    if !other.is_empty() {
        let part = part(random, other);
        put(random, bytes, place, &other[part]);
    }
}
