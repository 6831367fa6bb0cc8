//! What marks count: matched, unmatched and undecided entries, in each list.

mod common;

use common::calls::{Case, OLD_MARK};
use common::lists::NAME;
use common::random::Random;
use common::world::World;
use second::{Counts, Refusal};

fn counts(matched: u32, unmatched: u32, undecided: u32) -> Counts {
    Counts { matched, unmatched, undecided }
}

/// The bytes, with others behind them.
fn lent(marks: &[u8], behind: u8) -> Vec<u8> {
    let mut lent = marks.to_vec();
    lent.resize(1_024, behind);
    lent
}

/// In merged order the lists are 1, 1, 2, 2, 1.
fn five_entries() -> Case {
    let first = ["2 C T 1/1", "3 A C 1/1", "6 T A 1/1"];
    Case::new("GCATATG", &first, &["3 A C 1/1", "4 T G 0/1"])
}

#[test]
fn each_mark_is_counted_in_the_list_of_its_entry() {
    let case = five_entries();
    for (marks, first, second) in [
        (b"+++++", counts(3, 0, 0), counts(2, 0, 0)),
        (b"+-000", counts(2, 1, 0), counts(0, 2, 0)),
        (b"??0-?", counts(0, 0, 3), counts(1, 1, 0)),
        (b"00?+0", counts(0, 3, 0), counts(1, 0, 1)),
        (b"-?0?-", counts(2, 0, 1), counts(0, 1, 1)),
    ] {
        for behind in [b'+', b'0', b'?', OLD_MARK] {
            assert_eq!(case.count(&lent(marks, behind)), Ok([first, second]));
        }
    }
}

#[test]
fn a_byte_that_is_no_mark_is_counted_nowhere() {
    let case = five_entries();
    for other in (0..=255).filter(|byte| !b"+-0?".contains(byte)) {
        let marks = [b'+', other, other, b'?', b'0'];
        assert_eq!(case.count(&lent(&marks, other)), Ok([counts(1, 1, 0), counts(0, 0, 1)]));
    }
}

#[test]
fn too_few_marks_are_refused_before_a_list_is_read() {
    let mut case = five_entries();
    let refused = |number, list, line| Err(Refusal { number, list, line, place: 0 });
    for length in [0, 5, 1_023] {
        assert_eq!(case.count(&vec![b'+'; length]), refused(2, 0, 0));
    }
    case.second.pop();
    assert_eq!(case.count(&[b'+'; 1_023]), refused(2, 0, 0));
    assert_eq!(case.count(&[b'+'; 1_024]), refused(3, 2, 0));
    case.first.pop();
    assert_eq!(case.count(&[b'+'; 2_000]), refused(3, 1, 0));
    let wrong_reference = second::count(b"", NAME, &case.first, &case.second, b"");
    assert_eq!(wrong_reference, refused(1, 0, 0));
}

/// Where the marks are those of the lists, the counts add up to the entries and, over both lists, to
/// the totals that `compare` prints.
#[test]
fn the_counts_of_marked_lists_add_up() {
    for seed in 0..2_000 {
        let world = World::new(&mut Random::new(seed), 20);
        let case = Case::of(&world);
        let (marks, _) = case.marks().expect("accepted");
        let [first, second] = case.count(&lent(marks.as_bytes(), OLD_MARK)).expect("accepted");
        let sum = |count: Counts| (count.matched + count.unmatched + count.undecided) as usize;
        assert_eq!([sum(first), sum(second)], world.lists.each_ref().map(|list| list.len()));
        let printed = case.printed();
        let total = format!(
            "total\t{}\t{}\t{}\t",
            first.matched + second.matched,
            first.unmatched + second.unmatched,
            first.undecided + second.undecided
        );
        assert!(printed.lines().last().expect("a total").starts_with(&total));
    }
}
