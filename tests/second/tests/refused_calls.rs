//! Rows 1, 2, 16, 17 and 18: what concerns the call and not a list, with list and line 0.

mod common;

use common::calls::{normal, Case, OLD_CLUSTER, OLD_LISTED, OLD_MARK};
use common::lists::{text, NAME};
use common::refused::refusals;
use second::{Cluster, Marked, Refusal};

fn call(number: u32) -> Refusal {
    Refusal { number, list: 0, line: 0, place: 0 }
}

fn two_clusters() -> Case {
    Case::new("TATGCAGT", &["1 TAT T 1/1"], &["7 G C 1/1"])
}

#[test]
fn row_1_a_wrong_reference_refuses_every_call() {
    let empty = text(&[]);
    let long = vec![b'A'; 65_536];
    for wrong in [&b""[..], b"u", b"X", b"ACGTNU", b"acgtnr", b"AC\n", b"A C", b"\0", &long] {
        let (as_first, as_second) = refusals(wrong, &empty, &empty);
        for refusal in as_first.into_iter().chain(as_second) {
            assert_eq!(refusal, call(1));
        }
    }
}

#[test]
fn row_1_a_reference_file_ends_in_exactly_one_lf() {
    let (first, second) = (text(&[]), text(&[]));
    let refused = b"refused\t1\t0\t0\t0\n";
    for wrong in [&b""[..], b"\n", b"ACG", b"ACG\n\n", b"ACG\r\n", b"\nACG\n", b"ACG\nA"] {
        assert_eq!(second::compare(wrong, NAME, &first, &second), refused);
        assert_eq!(second::counts(wrong, NAME, &first, &second), refused);
        assert_eq!(second::normalise(wrong, NAME, &first), refused);
    }
    let printed = second::compare(b"ACGTN\n", NAME, &first, &second);
    assert_eq!(printed, b"list\tPOS\tcluster\tmark\ntotal\t0\t0\t0\t0\n");
    assert_eq!(second::normalise(b"ACGTN\n", NAME, &first), first);
    assert_eq!(second::counts(b"ACGTN\n", NAME, &first, &second), b"0\t0\t0\t0\t0\t0\n");
}

#[test]
fn row_2_small_room_refuses_plan_and_mark() {
    let case = two_clusters();
    let (reference, first, second) = (&case.reference, &case.first, &case.second);
    for (plan_room, marks_room) in [(1_023, 1_024), (1_024, 1_023), (0, 0), (0, 2_000)] {
        let mut plan = vec![OLD_CLUSTER; plan_room];
        let mut marks = vec![OLD_MARK; marks_room];
        if plan_room < 1_024 {
            let found = second::plan(reference, NAME, first, second, &mut plan);
            assert_eq!(found, Err(call(2)));
        }
        let found = second::mark(reference, NAME, first, second, &plan, 0, &mut marks);
        assert_eq!(found, Err(call(2)));
        let found = second::mark_all(reference, NAME, first, second, &mut plan, &mut marks);
        assert_eq!(found, Err(call(2)));
        assert!(plan.iter().all(|record| *record == OLD_CLUSTER));
        assert!(marks.iter().all(|mark| *mark == OLD_MARK));
    }
}

#[test]
fn row_2_small_room_refuses_entries_though_they_would_fit() {
    let case = two_clusters();
    let (reference, first, second) = (&case.reference, &case.first, &case.second);
    for room in [0, 2, 1_023] {
        let mut entries = vec![OLD_LISTED; room];
        let found = second::entries(reference, NAME, first, second, &mut entries);
        assert_eq!(found, Err(call(2)));
        assert!(entries.iter().all(|record| *record == OLD_LISTED));
    }
    for room in [1_024, 1_025, 5_000] {
        let mut entries = vec![OLD_LISTED; room];
        assert_eq!(second::entries(reference, NAME, first, second, &mut entries), Ok(2));
        assert!(entries[2..].iter().all(|record| *record == OLD_LISTED));
    }
}

#[test]
fn row_2_small_room_refuses_normal_though_the_normal_text_would_fit() {
    let text = text(&["4 TATA TA 1/1"]);
    for length in [0, text.len() - 1] {
        let mut room = vec![OLD_MARK; length];
        assert_eq!(second::normal(b"GCATATATG", NAME, &text, &mut room), Err(call(2)));
        assert!(room.iter().all(|byte| *byte == OLD_MARK));
    }
    let mut room = vec![OLD_MARK; text.len()];
    let length = second::normal(b"GCATATATG", NAME, &text, &mut room);
    assert_eq!(length, Ok(text.len() - 2));
    assert_eq!(room.last(), Some(&OLD_MARK));
}

#[test]
fn row_16_no_such_cluster() {
    let case = two_clusters();
    let plan = case.plan().expect("accepted");
    let mut marks = vec![OLD_MARK; 1_024];
    for cluster in [2, 3, 1_023, 1_024, usize::MAX] {
        assert_eq!(case.mark(&plan, cluster, &mut marks), Err(call(16)));
    }
    assert!(marks.iter().all(|mark| *mark == OLD_MARK));
    assert_eq!(case.mark(&plan, 1, &mut marks), Ok(Marked::Score(0)));
    let none = Case::new("ACG", &[], &[]);
    assert_eq!(none.mark(&plan, 0, &mut marks), Err(call(16)), "with no cluster any plan is one");
}

#[test]
fn row_17_a_plan_that_is_not_the_plan() {
    let case = two_clusters();
    let plan = case.plan().expect("accepted");
    let mut marks = vec![OLD_MARK; 1_024];
    for (record, changed) in [(0, (1, 1)), (0, (0, 2)), (1, (1, 2)), (1, (0, 1)), (1, (2, 1))] {
        let mut wrong = plan.clone();
        wrong[record] = Cluster { first: changed.0, count: changed.1 };
        for cluster in [0, 1] {
            assert_eq!(case.mark(&wrong, cluster, &mut marks), Err(call(17)));
        }
    }
    let short = &plan[..1];
    assert_eq!(case.mark(short, 0, &mut marks), Err(call(17)));
    assert!(marks.iter().all(|mark| *mark == OLD_MARK));
    let mut longer = plan.clone();
    longer.push(Cluster { first: 0, count: 1 });
    assert_eq!(case.mark(&longer, 0, &mut marks), Ok(Marked::Score(0)), "only 2 are judged");
}

#[test]
fn row_18_no_such_entry_or_allele() {
    let (reference, list) = (b"GCATATG", text(&["2 C T 0/1", "4 T A,G 1/1"]));
    let shown = |entry, allele| second::allele(reference, NAME, &list, entry, allele);
    for allele in [0, 1, 2, usize::MAX] {
        assert_eq!(shown(2, allele), Err(call(18)));
        assert_eq!(shown(usize::MAX, allele), Err(call(18)));
    }
    for (entry, allele) in [(0, 2), (0, 3), (1, 3), (0, usize::MAX), (1, usize::MAX)] {
        assert_eq!(shown(entry, allele), Err(call(18)));
    }
    for (entry, allele, bytes) in [(0, 0, b"C"), (0, 1, b"T"), (1, 0, b"T"), (1, 2, b"G")] {
        let part = shown(entry, allele).expect("shown");
        assert_eq!(part.bytes(reference, &list), bytes);
    }
    assert_eq!(second::allele(reference, NAME, &text(&[]), 0, 0), Err(call(18)));
}

#[test]
fn a_name_that_no_chrom_can_equal_refuses_the_first_record() {
    let one = text(&["2 C T 0/1"]);
    for name in [&b""[..], b"chr2", b"a\tb", b"chr1\n", b"\xff"] {
        let refusal = Refusal { number: 7, list: 1, line: 3, place: 0 };
        assert_eq!(normal(b"GCATATG", name, &one), Err(refusal));
        assert_eq!(second::allele(b"GCATATG", name, &one, 0, 0), Err(refusal));
        assert_eq!(normal(b"GCATATG", name, &text(&[])), Ok(text(&[])));
    }
}
