//! A text that every call refuses alike, or accepts, as list 1 and as list 2.

use super::calls::{normal, Case, OLD_MARK};
use super::lists::{text as text_with, NAME};
use second::Refusal;

/// The refusals of every call that takes `text` in place of list 1 (first) and of list 2 (second).
/// The programs' refused lines must agree with them, and lent memory keep its values.
pub fn refusals(reference: &[u8], text: &[u8], other: &[u8]) -> (Vec<Refusal>, Vec<Refusal>) {
    let mut as_first = refusals_of_pair(reference, text, other);
    as_first.push(normal(reference, NAME, text).expect_err("normal"));
    as_first.push(second::allele(reference, NAME, text, 0, 0).expect_err("allele"));
    let printed = second::normalise(&[reference, b"\n"].concat(), NAME, text);
    assert_eq!(printed, refused_line(as_first[0]));
    (as_first, refusals_of_pair(reference, other, text))
}

fn refusals_of_pair(reference: &[u8], first: &[u8], second: &[u8]) -> Vec<Refusal> {
    let (first, second) = (first.to_vec(), second.to_vec());
    let case = Case { reference: reference.to_vec(), first, second };
    let mut marks = vec![OLD_MARK; 1_024];
    let found = vec![
        case.plan().expect_err("plan"),
        case.mark(&[], 0, &mut marks).expect_err("mark"),
        case.marks().expect_err("mark_all"),
        case.count(&marks).expect_err("count"),
        case.entries().expect_err("entries"),
    ];
    assert!(marks.iter().all(|mark| *mark == OLD_MARK));
    assert_eq!(case.printed().into_bytes(), refused_line(found[0]));
    let file = [reference, b"\n"].concat();
    assert_eq!(second::counts(&file, NAME, &case.first, &case.second), refused_line(found[0]));
    found
}

fn refused_line(refusal: Refusal) -> Vec<u8> {
    let Refusal { number, list, line, place } = refusal;
    format!("refused\t{number}\t{list}\t{line}\t{place}\n").into_bytes()
}

/// Every call refuses `text` with this number and line, as list 1 and as list 2, and with place 0.
pub fn assert_refused(reference: &str, text: &[u8], number: u32, line: u32) {
    assert_refused_at(reference, text, number, line, 0);
}

/// The same with this place.
pub fn assert_refused_at(reference: &str, text: &[u8], number: u32, line: u32, place: u32) {
    let (as_first, as_second) = refusals(reference.as_bytes(), text, &text_with(&[]));
    for (list, found) in [(1, as_first), (2, as_second)] {
        let read = second::read(reference.as_bytes(), NAME, list, text).expect_err("read");
        for refusal in found.into_iter().chain([read]) {
            assert_eq!(refusal, Refusal { number, list, line, place });
        }
    }
}

/// The list is accepted in either place, with this number of entries.
pub fn assert_accepted(reference: &str, text: &[u8], entries: usize) {
    normal(reference.as_bytes(), NAME, text).expect("normal takes it");
    let other = text_with(&[]);
    for (list, first, second) in [(1, text, &other[..]), (2, &other[..], text)] {
        let read = second::read(reference.as_bytes(), NAME, list, text).expect("accepted");
        assert_eq!(read.records.len(), entries);
        let (first, second) = (first.to_vec(), second.to_vec());
        let case = Case { reference: reference.into(), first, second };
        let (marks, _) = case.marks().expect("marked");
        assert_eq!(marks.len(), entries);
        assert_eq!(case.entries().expect("listed").len(), entries);
    }
}
