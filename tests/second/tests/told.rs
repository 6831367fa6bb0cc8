//! What the driver tells of a call, number by number, and which allele of ALT a refusal is told at.

mod common;

use common::lists::{raw, text};
use common::seen::Seen;
use second::drive::at_allele::*;
use second::drive::case::{Answer, Call, Case, Told};
use second::drive::draw::folders::{folder, named_folder, ALT_IN};
use second::drive::draw::{draw, Asked, CALLS};
use second::drive::frame::read_told;
use second::drive::kind::{kinds, kinds_beside, Kind};
use second::drive::tally::Tally;
use second::programs::NAME;

/// As the driver writes it: the numbers of the answer, whether a byte changed, and what is left.
fn bytes_of(numbers: &[u32], changed: u8, left: &[u8]) -> Vec<u8> {
    let numbers = numbers.iter().flat_map(|number| number.to_le_bytes());
    numbers.chain([changed]).chain(left.iter().copied()).collect()
}

#[test]
fn an_answer_is_number_list_line_place_and_then_its_values() {
    let told = |values: &[u32], left: Vec<Vec<u8>>| {
        let answer =
            Answer { number: 0, list: 0, line: 0, place: 0, values: vec![0; values.len()] };
        let expected = Told { answer, changed: false, left };
        let numbers = [&[20, 2, 70_000, 14], values].concat();
        let bytes = bytes_of(&numbers, 1, &expected.left.concat());
        let found = read_told(&mut &bytes[..], &expected).expect("all of it");
        let answer =
            Answer { number: 20, list: 2, line: 70_000, place: 14, values: values.to_vec() };
        assert_eq!(found, Told { answer, changed: true, left: expected.left.clone() });
        for length in 0..bytes.len() {
            assert_eq!(read_told(&mut &bytes[..length], &expected), None);
        }
    };
    told(&[7], vec![b"left".to_vec()]);
    told(&[7, 8], vec![b"one".to_vec(), b"other".to_vec()]);
    told(&[7, 8, 9, 10, 11, 12], vec![]);
}

#[test]
fn the_allele_that_begins_at_the_place() {
    let list = text(&["2 C T,A 0/1", "22 CA T,A,G 0/1"]);
    let found = [(3, 12, FIRST), (3, 14, SECOND), (4, 14, FIRST), (4, 16, SECOND)];
    for (line, place, allele) in found {
        for row in [20, 21] {
            assert_eq!(at_allele(row, &list, line, place), allele);
        }
        for row in [1, 3, 9, 10, 11, 15, 18, 30] {
            assert_eq!(at_allele(row, &list, line, place), "");
        }
    }
    let empty = raw([b"c\t1\t.\tA\t,\t.\t.\t.\tGT\t1/1".to_vec()]);
    assert_eq!((at_allele(20, &empty, 3, 8), at_allele(20, &empty, 3, 9)), (FIRST, SECOND));
}

#[test]
fn an_equal_allele_is_told_apart_by_its_case() {
    let list =
        text(&["2 CA CA,ca 0/1", "2 cA Ca,G 0/1", "2 C T,t 0/1", "2 C T,T 0/1", "2 c T,c 0/1"]);
    let found = [
        (22, 3, 13, FIRST),
        (22, 3, 16, SECOND_RECASED),
        (22, 4, 13, FIRST_RECASED),
        (23, 5, 14, SECOND_RECASED),
        (23, 6, 14, SECOND),
        (22, 7, 14, SECOND),
    ];
    for (row, line, place, allele) in found {
        assert_eq!(at_allele(row, &list, line, place), allele);
    }
}

#[test]
#[should_panic(expected = "no allele begins at byte 18")]
fn a_place_behind_a_further_comma_is_no_allele() {
    at_allele(21, &text(&["22 CA T,A,G 0/1"]), 3, 18);
}

/// The place from the text alone: a refusal is told at an allele exactly where its row is one on ALT, and that allele has the fault.
fn assert_place(case: &Case) {
    let Answer { number, list, line, place, .. } = case.expected.answer;
    if !(20..=23).contains(&number) {
        return assert_eq!(place, 0, "{number}");
    }
    let text = case.call.text(list);
    let line = text.split(|byte| *byte == b'\n').nth(line as usize - 1).expect("a line");
    let fields: Vec<&[u8]> = line.split(|byte| *byte == b'\t').collect();
    let is_first = place as usize == fields[..4].concat().len() + 4;
    let part = &line[place as usize..];
    let allele = match is_first {
        true => part.split(|byte| *byte == b'\t' || *byte == b',').next(),
        false => part.split(|byte| *byte == b'\t').next(),
    };
    let allele = allele.expect("an allele");
    assert!(is_first || fields[4].ends_with(&[b",", allele].concat()));
    let is_wrong = match number {
        20 => allele.is_empty() || allele.len() > 64,
        21 => allele.iter().any(|byte| !b"ACGTNacgtn".contains(byte)),
        22 => allele.eq_ignore_ascii_case(fields[3]),
        _ => fields[4].eq_ignore_ascii_case(&[allele, allele].join(&b',')),
    };
    assert!(is_wrong, "{number} at {place} of {}", line.escape_ascii());
}

#[test]
fn every_refusal_of_every_call_has_its_place() {
    for asked in CALLS.map(|(_, asked)| asked).into_iter().chain([Asked::Mutated]) {
        let cases = (0..).flat_map(|number| draw(asked, 4, number)).take(5_000);
        for case in cases {
            assert_place(&case);
        }
    }
}

#[test]
fn each_row_on_alt_is_a_kind_of_its_own_at_each_allele_and_in_each_list() {
    for (call, asked) in CALLS {
        let lists = match asked {
            Asked::Version => 0,
            Asked::Allele | Asked::Normal => 1,
            _ => 2,
        };
        let kinds = kinds(asked);
        let on_alt: Vec<&Kind> = kinds.iter().filter(|kind| kind.number / 10 == 2).collect();
        assert_eq!(on_alt.len(), 10 * lists, "{call}");
        assert!(kinds.iter().all(|kind| kind.number != 10));
    }
    let wrong = text(&["2 C T, 0/1"]);
    let call = Call::Normal { text: wrong.clone(), out: wrong };
    assert_eq!(Kind::of(&Case::new(b"GCA", NAME, call)).to_string(), "normal 20/1 at the second");
}

#[test]
fn a_run_that_comes_upon_one_answer_alone_lacks_all_others() {
    let list = text(&["2 c t 0/1"]);
    let case = Case::new(b"gCa", NAME, Call::Normal { text: list.clone(), out: list });
    let mut tally = Tally::default();
    for _ in 0..2_000 {
        tally.note(case.clone(), Some(case.expected.clone()));
    }
    let (answered, beside) = (Kind::of(&case), Kind::beside(&case));
    let found: Vec<&str> = beside.iter().map(|kind| kind.what).collect();
    let lower = ["a reference with lower case", "alleles with lower case"];
    let recased = "REF in another case than the reference";
    assert_eq!(found, [lower[0], lower[1], recased, "a line written in another case alone"]);
    let mut all = [kinds(Asked::Normal), kinds_beside(Asked::Normal)].concat();
    all.retain(|kind| *kind != answered && !beside.contains(kind));
    let all: Vec<String> = all.iter().map(Kind::to_string).collect();
    assert_eq!(tally.rare_kinds(Asked::Normal), all);
    assert_eq!(all.len() + 5, 28 + 12);
}

#[test]
fn drawn_folders_come_upon_each_fault_of_alt_in_turn() {
    let mut seen = Seen::default();
    for turn in 0..2 * AT_ALLELES.len() {
        let (list, (row, allele)) = (turn / AT_ALLELES.len(), AT_ALLELES[turn % AT_ALLELES.len()]);
        for seed in 0..40 {
            let number = ALT_IN * turn as u64 + ALT_IN - 1;
            for (files, given) in [folder(seed, number), named_folder(seed, number)] {
                let [reference, first, second] = files.map(|file| file.expect("a file"));
                let name = given.name.as_deref().unwrap_or(NAME);
                let printed = second::compare(&reference, name, &first, &second);
                let printed = String::from_utf8(printed).expect("ASCII");
                let told: Vec<&str> = printed.trim_end().split('\t').collect();
                assert_eq!(told[..3], ["refused", &row.to_string(), &(list + 1).to_string()]);
                let [line, place] = [3, 4].map(|at| told[at].parse().expect("a number"));
                assert_eq!(at_allele(row, &[first, second][list], line, place), allele);
                seen.note("behind other records", line > 6);
                seen.note("another name", name != NAME);
            }
        }
    }
    seen.assert_each(50);
}
