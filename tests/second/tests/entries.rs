//! Where each entry stands: by hand, and on drawn lists what must hold of every record.

mod common;

use common::calls::{Case, OLD_LISTED};
use common::lists::{all_lines, line, text, COLUMN_LINE, NAME, VERSION_LINE};
use common::random::Random;
use common::seen::Seen;
use second::drawn::list::{Drawn, POS};
use second::drawn::pairs::{apart, crowd, pair, strangers, worlds};
use second::{Cluster, Listed, Refusal};

/// List, number in the list, line and cluster.
fn numbers(listed: &Listed) -> [u32; 4] {
    [listed.list, listed.entry, listed.line, listed.cluster]
}

fn entries(case: &Case) -> Vec<[u32; 4]> {
    case.entries().expect("accepted").iter().map(numbers).collect()
}

/// A text with so many header lines more.
fn with_header(more: usize, records: &[&str]) -> Vec<u8> {
    let header = (0..more).map(|number| format!("##line={number}"));
    let lines = [VERSION_LINE.to_string()].into_iter().chain(header);
    let records = records.iter().map(|record| line(record));
    let lines = lines.chain([COLUMN_LINE.to_string()]).chain(records);
    all_lines(lines.map(String::into_bytes))
}

#[test]
fn each_entry_has_its_list_its_number_its_line_and_its_cluster() {
    let first = ["2 C T 1/1", "3 A C 1/1", "6 T A 1/1"];
    let case = Case::new("GCATATG", &first, &["3 A C 1/1", "4 T G 0/1"]);
    let expected = [[1, 0, 3, 0], [1, 1, 4, 1], [2, 0, 3, 1], [2, 1, 4, 2], [1, 2, 5, 3]];
    assert_eq!(entries(&case), expected);
}

#[test]
fn header_lines_are_counted_in_each_text() {
    for (one, other) in [(0, 0), (1, 0), (0, 1), (3, 7), (40, 2)] {
        let first = with_header(one, &["2 C T 1/1", "6 T A 1/1"]);
        let second = with_header(other, &["3 A C 1/1"]);
        let case = Case { reference: b"GCATATG".to_vec(), first, second };
        let (one, other) = (one as u32, other as u32);
        let expected = [[1, 0, 3 + one, 0], [2, 0, 3 + other, 1], [1, 1, 4 + one, 2]];
        assert_eq!(entries(&case), expected);
    }
}

#[test]
fn equal_pos_list_1_first_then_order_in_the_list() {
    let case = Case::new("GAC", &["2 A C 1/1", "2 A T 1/1"], &["1 G C 1/1", "2 A C 0/1"]);
    assert_eq!(entries(&case), [[2, 0, 3, 0], [1, 0, 3, 1], [1, 1, 4, 1], [2, 1, 4, 1]]);
}

#[test]
fn pos_is_compared_as_a_number() {
    let case = Case::new("ACGTACGTACGT", &["9 A C 1/1"], &["10 C A 1/1"]);
    assert_eq!(entries(&case), [[1, 0, 3, 0], [2, 0, 3, 1]]);
    let case = Case::new("ACGTACGTACGT", &["10 C A 1/1"], &["9 A C 1/1"]);
    assert_eq!(entries(&case), [[2, 0, 3, 0], [1, 0, 3, 1]]);
}

#[test]
fn entries_of_an_undecided_cluster_are_listed_too() {
    let case = Case::new("GACT", &["2 A C 1/1"; 7], &["2 A C 1/1"; 6]);
    let of = |list, count| (0..count).map(move |entry| [list, entry, entry + 3, 0]);
    assert_eq!(entries(&case), of(1, 7).chain(of(2, 6)).collect::<Vec<_>>());
}

#[test]
fn no_entry_is_answered_with_0() {
    assert_eq!(entries(&Case::new("ACG", &[], &[])), [[0; 4]; 0]);
    assert_eq!(entries(&Case::new("ACG", &[], &["2 C T 1/1"])), [[2, 0, 3, 0]]);
}

#[test]
fn refused_in_the_order_of_the_rows_and_nothing_written() {
    let (good, bad) = (text(&["2 C T 0/1"]), text(&["2 C T 0/1", "2 C T 0/0"]));
    let refused = |number, list, line| Err(Refusal { number, list, line, place: 0 });
    for (reference, first, second, room, expected) in [
        (&b"GuA"[..], &bad[..], &b""[..], 1_023, refused(1, 0, 0)),
        (b"GCA", &bad, b"", 1_023, refused(2, 0, 0)),
        (b"GCA", &bad, b"", 1_024, refused(12, 1, 4)),
        (b"GCA", &good, b"", 1_024, refused(3, 2, 0)),
        (b"GCA", &good, &bad, 1_024, refused(12, 2, 4)),
        (b"GCA", &good, &good, 1_024, Ok(2)),
    ] {
        let mut entries = vec![OLD_LISTED; room];
        assert_eq!(second::entries(reference, NAME, first, second, &mut entries), expected);
        let written = expected.unwrap_or(0) as usize;
        assert!(entries[..written].iter().all(|record| *record != OLD_LISTED));
        assert!(entries[written..].iter().all(|record| *record == OLD_LISTED));
    }
    let mut entries = vec![OLD_LISTED; 1_024];
    let found = second::entries(b"GCA", b"chr2", &good, &good, &mut entries);
    assert_eq!(found, refused(7, 1, 3));
}

/// Two lists in all their variety.
fn drawn(random: &mut Random) -> [Drawn; 2] {
    match random.below(60) {
        0 => apart(random),
        1..=4 => worlds(random),
        5..=14 => crowd(random),
        15..=29 => strangers(random),
        _ => pair(random, 20),
    }
}

fn pos(lists: &[Drawn; 2], listed: &Listed) -> usize {
    let field = &lists[listed.list as usize - 1].records[listed.entry as usize][POS];
    String::from_utf8_lossy(field).parse().expect("a number")
}

#[test]
fn drawn_lists_have_one_record_an_entry_and_each_is_its_own() {
    let mut seen = Seen::default();
    for seed in 900_000..903_000 {
        let lists = drawn(&mut Random::new(seed));
        let (reference, name) = (&lists[0].reference, &lists[0].name);
        let texts = lists.each_ref().map(Drawn::text);
        let (mut plan, mut marks) = (vec![Cluster::default(); 1_024], vec![b'm'; 1_024]);
        let mut entries = vec![OLD_LISTED; 1_024];
        let [one, two] = &texts;
        let marked = second::mark_all(reference, name, one, two, &mut plan, &mut marks);
        let count = second::entries(reference, name, one, two, &mut entries).expect("accepted");
        plan.truncate(marked.expect("accepted").0 as usize);
        let (listed, behind) = entries.split_at(count as usize);
        assert!(behind.iter().all(|record| *record == OLD_LISTED));

        // As many as there are records, and as there are marks: 'm' is none.
        assert_eq!(listed.len(), lists.iter().map(|list| list.records.len()).sum::<usize>());
        assert_eq!(listed.len(), marks.iter().take_while(|mark| **mark != b'm').count());
        for (number, record) in listed.iter().enumerate() {
            // The line named is the line of the entry named.
            let (list, text) = (record.list as usize - 1, &texts[record.list as usize - 1]);
            let line = text.split(|byte| *byte == b'\n').nth(record.line as usize - 1);
            let fields = &lists[list].records[record.entry as usize];
            assert_eq!(line, Some(&fields.join(&b'\t')[..]));
            // The cluster named is the one that covers it.
            let Cluster { first, count } = plan[record.cluster as usize];
            assert!((first..first + count).contains(&(number as u32)));
        }
        // Each list's entries in their order, and none before one of lower POS, or of list 1 with equal POS.
        for list in [1, 2] {
            let own = listed.iter().filter(|record| record.list == list);
            assert!(own
                .map(|record| record.entry)
                .eq(0..lists[list as usize - 1].records.len() as u32));
        }
        for pair in listed.windows(2) {
            let order = |record| (pos(&lists, record), record.list);
            assert!(order(&pair[0]) <= order(&pair[1]));
        }
        note(&mut seen, &lists, listed);
    }
    seen.assert_each(20);
}

fn note(seen: &mut Seen, lists: &[Drawn; 2], listed: &[Listed]) {
    let [one, two] = lists.each_ref().map(|list| list.header.len());
    let turns = |pair: &[Listed]| pair[0].list != pair[1].list;
    let are_equal = |pair: &[Listed]| turns(pair) && pos(lists, &pair[0]) == pos(lists, &pair[1]);
    seen.note("no entry", listed.is_empty());
    seen.note("many entries", listed.len() > 1_000);
    seen.note("several clusters", listed.last().is_some_and(|record| record.cluster > 2));
    seen.note("other header lines in list 1", one > 2 && one != two);
    seen.note("the lists take turns", listed.windows(2).filter(|pair| turns(pair)).count() > 2);
    seen.note("equal POS in both lists", listed.windows(2).any(are_equal));
}
