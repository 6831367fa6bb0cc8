//! The file that program lot_report reads: runs with counts at the bounds, in the layout or in one that is damaged.

use super::random_of;
use crate::drawn::mutate::mutate;
use crate::drawn::random::Random;
use crate::list::{RECORDS_MOST, TEXT_MOST};
use crate::lot::RUNS_MOST;
use crate::report::READ_HEADING;

/// The name of the file.
pub const FILE: &str = "runs.tsv";

/// The fields of a line.
type Line = Vec<Vec<u8>>;

/// Counts of a list that exceed 512 together: by one, by much, and only where they are not cut to 32 or 64 bits.
const LARGE: [[&str; 3]; 16] = [
    ["513", "0", "0"],
    ["512", "1", "0"],
    ["511", "1", "1"],
    ["171", "171", "171"],
    ["512", "512", "512"],
    ["65536", "0", "0"],
    ["4294967295", "0", "0"],
    ["4294967295", "1", "0"],
    ["4294967295", "4294967295", "4294967295"],
    ["2147483648", "2147483648", "0"],
    ["4294967296", "0", "0"],
    ["4294967301", "2", "0"],
    ["42949672960", "0", "1"],
    ["18446744073709551615", "1", "0"],
    ["18446744073709551619", "0", "0"],
    ["340282366920938463463374607431768211456", "3", "2"],
];

/// Fields that are no count.
const NO_COUNTS: [&[u8]; 14] = [
    b"", b"00", b"01", b"+1", b"-1", b" 1", b"1 ", b"1.0", b"1e2", b"0x1", b"x", b"1\r", b"/", b":",
];

const ODD_NAMES: [&[u8]; 12] = [
    b"lot", b"none", b"run", b"refused", b"0", b" ", b"\r", b"\0", b"\xff", b"\"a b\"", b"#1",
    b"##",
];

/// File `number` of the run with this seed, None where it is missing.
pub fn runs_file(seed: u64, number: u64) -> Option<Vec<u8>> {
    let random = &mut random_of(seed, number);
    let mut lines = runs(random);
    match random.below(60) {
        0 => return None,
        1..=5 => size(random, &mut lines),
        _ => {}
    }
    let (damaged, last) = (random.below(9), lines.len() - 1);
    match damaged {
        0 => damage_line(random, &mut lines, 0),
        1 => {
            let line = random.below(lines.len()).max(random.below(lines.len()));
            damage_line(random, &mut lines, line.max(last.min(1)));
        }
        _ => {}
    }
    let mut text = text(&lines);
    if damaged == 2 {
        damage_text(random, &mut text);
    }
    Some(text)
}

fn text(lines: &[Line]) -> Vec<u8> {
    lines.iter().flat_map(|fields| [fields.join(&b'\t'), b"\n".to_vec()].concat()).collect()
}

/// The heading and the runs. In one of five files, a run has too large counts.
fn runs(random: &mut Random) -> Vec<Line> {
    let are_undecided = random.once_in(12);
    let heading = READ_HEADING.split('\t').map(|field| field.as_bytes().to_vec()).collect();
    let mut lines: Vec<Line> = vec![heading];
    for number in 0..how_many(random) {
        let lists = [counts(random, are_undecided), counts(random, are_undecided)];
        let mut fields = vec![name(random, number)];
        fields.extend(lists.concat().iter().map(|count| count.to_string().into_bytes()));
        lines.push(fields);
    }
    if lines.len() > 1 && random.once_in(5) {
        let (run, list) = (random.between(1, lines.len() - 1), random.below(2));
        let (large, turned) = (random.pick(&LARGE), random.below(3));
        for (number, count) in large.iter().enumerate() {
            lines[run][1 + 3 * list + (number + turned) % 3] = count.as_bytes().to_vec();
        }
    }
    lines
}

fn how_many(random: &mut Random) -> usize {
    match random.below(20) {
        0 => 0,
        1..=3 => 1,
        4 | 5 => RUNS_MOST,
        6 => RUNS_MOST - 1,
        7 => RUNS_MOST + 1,
        8 => random.between(RUNS_MOST + 1, 300),
        9 | 10 => random.between(13, RUNS_MOST),
        _ => random.between(2, 12),
    }
}

/// Matched, unmatched and undecided, at most 512 together.
fn counts(random: &mut Random, are_undecided: bool) -> [usize; 3] {
    let any = random.below(RECORDS_MOST);
    let all = *random.pick(&[0, 1, 3, any, any, any, RECORDS_MOST - 1, RECORDS_MOST, RECORDS_MOST]);
    let (one, other) = (random.between(0, all), random.between(0, all));
    match random.below(10) {
        _ if are_undecided => [0, 0, all],
        0 => [0, 0, all],
        1 => [0, all, 0],
        2 => [all, 0, 0],
        _ => [one.min(other), one.abs_diff(other), all - one.max(other)],
    }
}

fn name(random: &mut Random, number: usize) -> Vec<u8> {
    let any = |random: &mut Random| *random.pick(&[0, 8, 11, 13, 31, 32, 48, 63, 127, 128, 255]);
    match random.below(12) {
        0 => random.pick(&ODD_NAMES).to_vec(),
        1 => (0..random.between(1, 12)).map(|_| any(random)).collect(),
        2 => vec![any(random); random.between(60, 200)],
        _ => format!("run-{number}").into_bytes(),
    }
}

/// Makes the text one of the sizes where the rules change, by longer names: one is lengthened, or all. Behind the most that is
/// accepted, there may be a line more.
fn size(random: &mut Random, lines: &mut Vec<Line>) {
    let size = TEXT_MOST - 1 + *random.pick(&[0, 1, 1, 2, 5_000]);
    let mut missing = size.saturating_sub(text(lines).len());
    let share = if random.once_in(2) { missing } else { missing / lines.len() + 1 };
    for fields in &mut lines[1..] {
        let more = share.min(missing);
        fields[0].extend(vec![b'x'; more]);
        missing -= more;
    }
    if random.once_in(3) {
        lines.push(lines[lines.len() - 1].clone());
    }
}

/// The line gets another layout, or goes, or stands behind one that does not belong there.
fn damage_line(random: &mut Random, lines: &mut Vec<Line>, line: usize) {
    let fields = &mut lines[line];
    let field = random.below(fields.len());
    match random.below(12) {
        0 => drop(fields.remove(field)),
        1 => fields.insert(field, fields[field].clone()),
        2 => fields.push(Vec::new()),
        3 => fields[0].clear(),
        4 => fields[field.max(1)].insert(0, b'0'),
        5..=7 => fields[field.max(1)] = random.pick(&NO_COUNTS).to_vec(),
        8 => fields[6].push(b'\r'),
        9 => lines.insert(line, vec![Vec::new()]),
        10 => lines.insert(line + 1, vec![Vec::new()]),
        _ => drop(lines.remove(line)),
    }
}

/// The text ends in another way, or a few of its bytes are changed.
fn damage_text(random: &mut Random, text: &mut Vec<u8>) {
    let other = text.clone();
    match random.below(8) {
        0 => text.clear(),
        1 | 2 => drop(text.pop()),
        3 => text.extend(b"\r"),
        4 => text.truncate(random.below(text.len())),
        _ => mutate(random, text, &other),
    }
}
