//! Damage to a list text: one byte, TAB, field or line of it, or its size.

use super::random::Random;

/// One damage somewhere: a byte, a TAB, a field, a line, or the size of the whole.
pub fn damage(random: &mut Random, text: &mut Vec<u8>) {
    if text.is_empty() {
        return;
    }
    let place = random.below(text.len());
    match random.below(12) {
        0 => text[place] = *random.pick(b"\t\n#,/|:.0123456789ACGTNacx*\r\0\xff"),
        1 => text.insert(place, *random.pick(b"\t\n#,/|:.0129ANa \r\0\xff")),
        2 => drop(text.remove(place)),
        3 => double_a_tab(text, place),
        4 | 5 => change_lines(random, text),
        6..=9 => change_a_field(random, text),
        10 => lengthen(random, text, place),
        _ => text.truncate(place),
    }
}

fn double_a_tab(text: &mut Vec<u8>, from: usize) {
    if let Some(next) = text[from..].iter().position(|byte| *byte == b'\t') {
        text.insert(from + next, b'\t');
    }
}

/// Puts many bytes at one place, or so many records to the end that one is the 513th.
fn lengthen(random: &mut Random, text: &mut Vec<u8>, place: usize) {
    match random.below(12) {
        0..=6 => drop(text.splice(place..place, vec![b'A'; random.between(900, 1_100)])),
        7 => text.extend(vec![b'\n'; 65_537]),
        _ => {
            let last = text.split_inclusive(|byte| *byte == b'\n').next_back();
            let last = last.expect("a line").to_vec();
            text.extend(last.repeat(random.between(505, 514)));
        }
    }
}

/// Exchanges, repeats, drops or shortens lines.
fn change_lines(random: &mut Random, text: &mut Vec<u8>) {
    let mut lines: Vec<Vec<u8>> =
        text.split_inclusive(|byte| *byte == b'\n').map(<[u8]>::to_vec).collect();
    let (one, other) = (random.below(lines.len()), random.below(lines.len()));
    match random.below(5) {
        0 | 1 => lines.swap(one, other),
        2 => lines.insert(one, lines[other].clone()),
        3 => drop(lines.remove(one)),
        _ => {
            let length = random.below(lines[one].len());
            lines[one].truncate(length);
            lines[one].push(b'\n');
        }
    }
    *text = lines.concat();
}

/// Gives a field of some line another value that may be right or wrong there.
fn change_a_field(random: &mut Random, text: &mut Vec<u8>) {
    let mut lines: Vec<Vec<u8>> = text.split(|byte| *byte == b'\n').map(<[u8]>::to_vec).collect();
    // Records are likelier than the header; behind the last LF is nothing to change.
    let line = random.below(lines.len()).max(random.below(lines.len()));
    let line = line.min(lines.len().saturating_sub(2));
    let mut fields: Vec<&[u8]> = lines[line].split(|byte| *byte == b'\t').collect();
    // ALT has the most ways to be wrong.
    let any = random.below(fields.len());
    let field = if random.once_in(4) { 4.min(fields.len() - 1) } else { any };
    let (long, longer) = ([b'A'; 64], [b'C'; 65]);
    let (first_long, second_long) =
        ([&longer[..], b",c"].concat(), [&b"TC,"[..], &longer].concat());
    let replaced = fields.get(3).map_or(&b""[..], |field| field);
    let second_replaced = [b"TC,", replaced].concat();
    fields[field] = match field {
        0 => *random.pick(&[&b"chr1"[..], b"chr2", b"chr", b"##", b"#CHROM"]),
        1 => *random.pick(&[&b"1"[..], b"2", b"3", b"0", b"01", b"65535", b"65536", b"+1", b""]),
        3 => *random.pick(&[&b"A"[..], b"C", b"N", b"AA", b"a", &long, &longer]),
        4 => *random.pick(&[
            &b"A"[..],
            b"C",
            b"A,C",
            b"A,A",
            b"TC,TC",
            b"A,",
            b"TC,",
            b",A",
            b"c,",
            b"A,c",
            b"TC,A*",
            b"A,C,G",
            &long,
            &longer,
            &first_long,
            &second_long,
            replaced,
            &second_replaced,
            &second_replaced,
        ]),
        8 => *random.pick(&[&b"GT"[..], b"GT:", b"GT:DP", b"GTX", b"DP:GT"]),
        9 => *random.pick(&[&b"0/0"[..], b"0|0:1", b"1|1", b"2/1", b"0/3", b"1", b"1/1/1", b"./."]),
        _ => *random.pick(&[&b"."[..], b"", b"\xff\r"]),
    };
    lines[line] = fields.join(&b'\t');
    *text = lines.join(&b'\n');
}
