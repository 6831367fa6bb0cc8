//! What is drawn as overlapping overlaps: on opposite copies, where both entries are chosen, and on the same copy, where one is left out.
//! Both searches find the same pair there, and a run tells these marks from others.

mod common;

use common::calls::{Case, OLD_CLUSTER, OLD_MARK};
use common::lists::NAME;
use common::random::Random;
use common::searched::assert_same;
use common::seen::Seen;
use second::choice::Choice;
use second::drawn::opposite::opposite_lists;
use second::drawn::world::random_reference;
use second::drive::case::{Call, Case as DrivenCase};
use second::drive::draw::folders::FILES;
use second::drive::draw::Asked;
use second::drive::room::{found_in_all, OPPOSITE, SAME_COPY};
use second::drive::tally::Tally;
use second::merged::merged;
use second::whole::{hold, Folder};
use second::Entry;

/// What a run tells of the marks of short records.
fn told(reference: &str, first: &[&str], second: &[&str]) -> Vec<&'static str> {
    let Case { reference, first, second } = Case::new(reference, first, second);
    found_in_all(&reference, NAME, [&first, &second])
}

#[test]
fn a_run_tells_what_overlap_does() {
    let (one, other) = ("2 A C 0/1", "2 A C 1/0");
    assert_eq!(told("GACTC", &["2 ACT A 0/1", "3 C G 1/0"], &["2 ACT AGT,A 1/2"]), [OPPOSITE]);
    assert_eq!(told("gac", &[one, one], &["2 A C 1/1"]), [OPPOSITE]);
    assert_eq!(told("gac", &["2 A C 1/1"], &[one, other]), [OPPOSITE]);
    assert_eq!(told("GAC", &[one, one], &[one]), [SAME_COPY]);
    assert_eq!(told("GAC", &[one], &[one, other]), [SAME_COPY]);
    assert_eq!(told("GAC", &[one; 3], &["2 A C 1/1"]), [OPPOSITE, SAME_COPY]);
    // One list's entry overlaps the other's, spans touch, an entry is homozygous, or would not match.
    assert_eq!(told("GAC", &[one], &[other]), [""; 0]);
    assert_eq!(told("GACTC", &["2 A C 0/1", "3 C G 1/0"], &["2 AC CC,AG 2/1"]), [""; 0]);
    assert_eq!(told("GAC", &["2 A C 1/1", "2 A C 1/1"], &["2 A C 1/1"]), [""; 0]);
    assert_eq!(told("GAC", &[one, "2 A T 0/1"], &[one]), [""; 0]);
    assert_eq!(told("GAC", &[one, "2 A C 0/2"], &[one]), [""; 0], "refused");
    assert_eq!(told("GAC", &[one; 7], &[one; 7]), [""; 0], "undecided");
}

/// Thirty folders for compare, so many of them with entries on opposite copies.
fn folders(opposite: usize) -> impl Iterator<Item = Folder> {
    (0..30).map(move |number| {
        let second = if number < opposite { "2 A C 1/1" } else { "2 A C 0/1" };
        let Case { reference, first, second } = Case::new("GAC", &["2 A C 0/1"; 2], &[second]);
        let reference = [&reference[..], b"\n"].concat();
        let expected = second::compare(&reference, NAME, &first, &second);
        let files = FILES.into_iter().zip([reference, first, second].map(Some)).collect();
        Folder { files, given: None, expected }
    })
}

#[test]
fn a_run_of_a_program_misses_opposite_copies_where_they_are_rare() {
    let compare = [env!("CARGO_BIN_EXE_second"), "compare", "."].map(String::from);
    let [opposite, same_copy] = [OPPOSITE, SAME_COPY].map(|what| format!("{what} answered"));
    let demanded = [opposite.as_str(), &same_copy];
    for (count, missing) in
        [(0, &demanded[..1]), (2, &demanded[..1]), (3, &[]), (30, &demanded[1..])]
    {
        let held = hold(&compare, folders(count), |_| String::new());
        assert_eq!(held.missing(&demanded), missing, "{count}");
    }
}

/// A call of mark_all, with entries on opposite copies or without.
fn mark_all(is_opposite: bool) -> DrivenCase {
    let second = if is_opposite { "2 A C 1/1" } else { "2 A C 0/1" };
    let Case { reference, first, second } = Case::new("GAC", &["2 A C 0/1"; 2], &[second]);
    let (plan, marks) = (vec![OLD_CLUSTER; 1_024], vec![OLD_MARK; 1_024]);
    DrivenCase::new(&reference, NAME, Call::MarkAll { texts: [first, second], plan, marks })
}

#[test]
fn a_run_of_calls_lacks_opposite_copies_where_they_are_rare() {
    for (count, is_rare) in [(0, true), (1, true), (2, false), (120, false)] {
        let mut tally = Tally::default();
        for number in 0..120 {
            let case = mark_all(number < count);
            let told = case.expected.clone();
            tally.note(case, Some(told));
        }
        let opposite = format!("mark_all answered ({OPPOSITE})");
        assert_eq!(tally.rare_kinds(Asked::MarkAll).contains(&opposite), is_rare, "{count}");
    }
}

#[test]
fn overlapping_lists_are_what_they_say() {
    let mut seen = Seen::default();
    for seed in 930_000..931_500 {
        let random = &mut Random::new(seed);
        let reference = random_reference(random);
        let lists = opposite_lists(random, &reference, 8);
        if lists.iter().map(Vec::len).sum::<usize>() > 8 {
            continue;
        }
        assert!(lists.iter().all(|list| list.is_sorted_by_key(|entry| entry.pos)));
        note(&mut seen, &reference, lists.each_ref().map(Vec::as_slice));
    }
    seen.assert_each(250);
}

fn note(seen: &mut Seen, reference: &[u8], lists: [&[Entry]; 2]) {
    let found = assert_same(reference, lists);
    let items = merged(lists);
    let chosen: Vec<_> =
        items.iter().zip(&found.choices).filter(|(_, one)| one.is_chosen()).collect();
    let chosen_of = |list: usize| {
        chosen.iter().filter(move |(item, _)| item.list == list).map(|(item, _)| item.of(lists))
    };
    let [first, second] = lists.map(|list| common::lists::text_of(list));
    let told = found_in_all(reference, NAME, [&first, &second]);
    let is_opposite = told.contains(&OPPOSITE);
    seen.note("chosen on opposite copies", is_opposite);
    seen.note("left out for one on the same copy", told.contains(&SAME_COPY));
    seen.note("both", told.len() == 2);
    seen.note("all chosen", is_opposite && chosen.len() == items.len());
    let is_exchanged = chosen.iter().any(|(_, choice)| **choice == Choice::Minus);
    seen.note("one exchanged", is_opposite && is_exchanged);
    let is_for_several = is_opposite && chosen_of(1).count() < chosen_of(0).count();
    let is_homozygous = |entry: &Entry| entry.copies[0] == entry.copies[1];
    let is_of_two = |entry: &Entry| !entry.copies.contains(&0) && !is_homozygous(entry);
    seen.note("one of two ALTs for several", is_for_several && chosen_of(1).any(is_of_two));
    seen.note("one homozygous for several", is_for_several && chosen_of(1).any(is_homozygous));
    let first: Vec<&Entry> = chosen_of(0).collect();
    let is_twice =
        first.windows(2).any(|two| two[0].pos == two[1].pos && two[0].alts == two[1].alts);
    seen.note("a het duplicate chosen", is_twice);
}
