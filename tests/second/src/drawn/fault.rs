//! A fault of a chosen row, near the border between what the row refuses and what it leaves. Some
//! of the values are right after all, or are a fault of another row: the table decides.

use super::false_alts::false_alts;
use super::list::{fill_line, Drawn, Fields, ALT, CHROM, FORMAT, LINE_MOST, POS, REF, SAMPLE};
use super::random::Random;

/// The rows that `fault` breaks on a line; twice those that it breaks at either allele, and those that it breaks in either case.
pub const ROWS: [u32; 20] =
    [4, 5, 6, 7, 8, 9, 20, 20, 21, 21, 22, 22, 22, 22, 23, 23, 11, 12, 13, 14];

const FALSE_POS: [&[u8]; 14] = [
    b"0",
    b"01",
    b"00",
    b"-1",
    b"+1",
    b"1 ",
    b"1.",
    b"x",
    b"65535",
    b"65536",
    b"99999",
    b"100000",
    // One more than 2 to the 32nd and to the 64th: they are not 1.
    b"4294967297",
    b"18446744073709551617",
];
const FALSE_ALLELE: [&[u8]; 14] = [
    b".", b"*", b"u", b"R", b"A ", b"<DEL>", b"A\0", b"\xe1", b"acgtnx", b"a-", b"a,c", b"nr",
    b"Ac ", b"t\0",
];
const FALSE_FORMAT: [&[u8]; 7] = [b"G", b"gt", b"GTX", b"GT;", b"DP:GT", b":GT", b"GT\r"];
const FALSE_GENOTYPE: [&[u8]; 16] = [
    b".", b"./.", b"1", b"1/", b"/1", b"1/1/1", b"1\\1", b"1 1", b"1/1 ", b" 1/1", b":1/1",
    b"1:/1", b"2/1", b"0|2", b"3/0", b"01/1",
];
const ZERO_GENOTYPE: [&[u8]; 4] = [b"0/0", b"0|0", b"0/0:1/1", b"0|0:"];

/// Breaks `row` on some line of the list: on a header line or, where it has one, on a record.
pub fn fault(random: &mut Random, list: &mut Drawn, row: u32) {
    if list.records.is_empty() || (row == 5 && random.once_in(2)) {
        return header_fault(random, list, row);
    }
    let number = random.below(list.records.len());
    if row == 14 {
        let other = random.below(list.records.len());
        return list.records.swap(number, other);
    }
    let reference = list.reference.len();
    record_fault(random, &mut list.records[number], reference, row);
}

fn header_fault(random: &mut Random, list: &mut Drawn, row: u32) {
    let number = random.below(list.header.len().max(1));
    let Some(line) = list.header.get_mut(number) else { return };
    if row == 4 {
        let length = near_the_longest(random);
        return line.resize(length.max(line.len()), b'h');
    }
    match random.below(8) {
        0 => drop(list.header.remove(number)),
        1 => list.header.insert(number, Vec::new()),
        2 => list.header.insert(number, b"#".to_vec()),
        3 => list.header.swap(0, number),
        4 => line.push(*random.pick(b"\t\r x")),
        5 => drop(line.pop()),
        6 => line.truncate(line.iter().rposition(|byte| *byte == b'\t').map_or(1, |tab| tab + 1)),
        _ => {
            let place = random.below(line.len().max(1));
            line.splice(place..line.len().min(place + 1), [*random.pick(b"# \tC1")]);
        }
    }
}

fn record_fault(random: &mut Random, fields: &mut Fields, reference: usize, row: u32) {
    if fields.len() <= SAMPLE {
        return; // An earlier fault took a field away.
    }
    match row {
        4 => fill_line(fields, near_the_longest(random)),
        5 => fields[CHROM].insert(0, b'#'),
        6 => count_fault(random, fields),
        7 => name_fault(random, &mut fields[CHROM]),
        8 => fields[POS] = random.pick(&FALSE_POS).to_vec(),
        9 => fields[REF] = false_allele(random),
        20..=23 => {
            let (is_second, is_recased) = (random.once_in(2), random.once_in(2));
            fields[ALT] = false_alts(random, &fields[REF], row, is_second, is_recased);
        }
        11 if random.once_in(2) => fields[FORMAT] = random.pick(&FALSE_FORMAT).to_vec(),
        11 => fields[SAMPLE] = random.pick(&FALSE_GENOTYPE).to_vec(),
        12 => fields[SAMPLE] = random.pick(&ZERO_GENOTYPE).to_vec(),
        _ => place_fault(random, fields, reference),
    }
}

fn near_the_longest(random: &mut Random) -> usize {
    *random.pick(&[LINE_MOST, LINE_MOST + 1, LINE_MOST + 1, LINE_MOST + 2, 2 * LINE_MOST])
}

/// A field is emptied, taken away, given twice or added; or the line has none at all.
fn count_fault(random: &mut Random, fields: &mut Fields) {
    let number = random.below(fields.len());
    match random.below(5) {
        0 => fields[number].clear(),
        1 => drop(fields.remove(number)),
        2 => fields.insert(number, b"again".to_vec()),
        3 => fields.push(Vec::new()),
        _ => *fields = vec![Vec::new()],
    }
}

fn name_fault(random: &mut Random, name: &mut Vec<u8>) {
    let last = name.len().saturating_sub(1);
    match random.below(6) {
        0 => name.push(b'1'),
        _ if name.is_empty() => {}
        1 if last > 0 => drop(name.pop()),
        2 => name[last] = name[last].wrapping_add(1),
        _ => name[0] ^= 0x20,
    }
}

/// Not a base, or one base more than an allele may have.
fn false_allele(random: &mut Random) -> Vec<u8> {
    match random.once_in(3) {
        true => vec![*random.pick(b"ACGTNacgtn"); 65],
        false => random.pick(&FALSE_ALLELE).to_vec(),
    }
}

/// REF differs from the reference, or stands elsewhere, or runs past the end.
fn place_fault(random: &mut Random, fields: &mut Fields, reference: usize) {
    let place = random.below(fields[REF].len().max(1));
    match random.below(3) {
        0 if !fields[REF].is_empty() => fields[REF][place] = *random.pick(b"ACGTNacgtn"),
        1 => fields[POS] = (reference + random.below(2)).to_string().into_bytes(),
        _ => fields[POS] = random.between(1, reference.max(1)).to_string().into_bytes(),
    }
}
