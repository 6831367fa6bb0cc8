//! The pruned search against the definition, which tries every pair of choices.

mod common;

use common::random::Random;
use common::searched::{assert_same, marks};
use common::world::World;

#[test]
fn both_searches_find_the_same_pair_for_up_to_9_entries() {
    let mut sizes = [0; 10];
    let mut chosen = [0; 3];
    for seed in 100_000..106_000 {
        let mut random = Random::new(seed);
        let world = World::new(&mut random, 9);
        let found = assert_same(&world.reference, world.lists());
        sizes[found.choices.len()] += 1;
        for choice in found.choices {
            chosen[choice as usize] += 1;
        }
    }
    assert!(sizes.iter().all(|count| *count > 100), "{sizes:?}");
    assert!(chosen.iter().all(|count| *count > 500), "{chosen:?}");
}

#[test]
fn both_searches_find_the_same_pair_for_10_to_12_entries() {
    let mut sizes = [0; 13];
    for seed in 200_000.. {
        let mut random = Random::new(seed);
        let world = World::new(&mut random, 12);
        let size = world.lists.iter().map(Vec::len).sum::<usize>();
        if size >= 10 && sizes[size] < 4 {
            assert_same(&world.reference, world.lists());
            sizes[size] += 1;
        }
        if sizes[10..] == [4, 4, 4] {
            return;
        }
    }
}

#[test]
fn among_equals_the_first_in_dictionary_order_is_taken() {
    // Either of two equal entries can be left out: the later is.
    assert_eq!(marks("GAC", &["2 A C 1/1", "2 A C 1/1"], &["2 A C 1/1"]), "+0+");
    assert_eq!(marks("GAC", &["2 A C 1/1"], &["2 A C 1/1", "2 A C 1/1"]), "++0");
    // Marks of one POS stand in the order of the list.
    assert_eq!(marks("GAC", &["2 A C 1/1", "2 A T 1/1"], &["2 A C 1/1"]), "+0+");
    assert_eq!(marks("GAC", &["2 A T 1/1", "2 A C 1/1"], &["2 A C 1/1"]), "0++");
    // Both copies can be exchanged in both lists: the first entry stays as written.
    assert_eq!(marks("GAC", &["2 A C 1/0"], &["2 A C 0/1"]), "+-");
    // List 1 comes before list 2 at the same POS, an earlier POS before both.
    assert_eq!(marks("GACA", &["2 A C 0/1", "4 A C 1/0"], &["2 A C 1/0", "4 A C 0/1"]), "+-+-");
    assert_eq!(marks("GAC", &["2 A C 0/1"], &["1 GA GC 1/0"]), "+-", "list 2's entry is first");
}

#[test]
fn the_highest_score_comes_before_the_order() {
    // `+` for the long entry of list 1 would leave out the two short ones.
    let (first, second) = (["1 AC GT 1/1", "1 A G 1/1", "2 C T 1/1"], ["1 A G 1/1", "2 C T 1/1"]);
    assert_eq!(marks("AC", &first, &second), "0++++");
}

#[test]
fn overlap_is_of_ref_spans_within_one_list() {
    assert_eq!(marks("ACGT", &["1 AC A 1/1", "2 C CC 1/1"], &[]), "00");
    assert_eq!(marks("ACGT", &["1 A AC 1/1", "2 CG G 1/1"], &[]), "++");
    assert_eq!(marks("ACGT", &["1 ACG TCG 1/1"], &["1 A T 1/1"]), "++");
}

#[test]
fn both_copies_must_agree() {
    assert_eq!(marks("GAC", &["2 A C,T 1/2"], &["2 A T,C 1/2"]), "+-");
    assert_eq!(marks("GAC", &["2 A C,T 1/2"], &["2 A C,G 1/2"]), "00");
    assert_eq!(marks("GAC", &["2 A C,T 2/1"], &["2 A T,C 1/2"]), "++");
    assert_eq!(marks("GAC", &["2 A C 0/1"], &["2 A C,T 1/2"]), "00");
    assert_eq!(marks("GAC", &["2 A C,T 1/1"], &["2 A C 1/1"]), "++");
}
