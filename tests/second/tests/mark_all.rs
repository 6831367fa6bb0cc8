//! A whole pair in one call: what `plan`, and then `mark` of each cluster in any order, leave and add up to.

mod common;

use common::calls::{Case, OLD_CLUSTER, OLD_MARK};
use common::damage::damage;
use common::lists::NAME;
use common::random::Random;
use common::seen::Seen;
use second::drawn::list::Drawn;
use second::drawn::pairs::{crowd, pair, strangers, worlds};
use second::{Cluster, Marked, Refusal};

/// Clusters of 3, 13 and 1 entries; the one of 13 is undecided.
fn three_clusters() -> Case {
    let mut first = vec!["2 A C 0/1"];
    first.extend(["10 A C 1/1"; 13]);
    Case::new("GACGTTGCGAT", &first, &["1 GA GC 1/0", "2 A T 1/1", "11 T G 1/1"])
}

#[test]
fn undecided_clusters_are_counted_and_not_in_the_score() {
    let case = three_clusters();
    let (mut plan, mut marks) = ([OLD_CLUSTER; 1_024], [OLD_MARK; 1_024]);
    let (reference, first, second) = (&case.reference, &case.first, &case.second);
    let marked = second::mark_all(reference, NAME, first, second, &mut plan, &mut marks);
    assert_eq!(marked, Ok((3, 2)));
    let cluster = |first, count| Cluster { first, count };
    assert_eq!(plan[..4], [cluster(0, 3), cluster(3, 13), cluster(16, 1), OLD_CLUSTER]);
    assert_eq!(marks[..18], *b"+-0?????????????0m");
}

#[test]
fn refused_in_the_order_of_the_rows_and_nothing_written() {
    let case = three_clusters();
    let (whole, cut) = (&case.first[..], &case.first[..case.first.len() - 1]);
    let refused = |number, list, line| Err(Refusal { number, list, line, place: 0 });
    for (reference, first, second, rooms, expected) in [
        (&b"GACGTTGCGA "[..], cut, cut, [1_023, 1_023], refused(1, 0, 0)),
        (&case.reference, cut, cut, [1_023, 1_024], refused(2, 0, 0)),
        (&case.reference, cut, cut, [1_024, 1_023], refused(2, 0, 0)),
        (&case.reference, cut, cut, [1_024, 1_024], refused(3, 1, 0)),
        (&case.reference, whole, cut, [1_024, 1_024], refused(3, 2, 0)),
        (b"GACGTTGCGC", whole, whole, [2_000, 1_024], refused(13, 1, 4)),
    ] {
        let (mut plan, mut marks) = (vec![OLD_CLUSTER; rooms[0]], vec![OLD_MARK; rooms[1]]);
        let found = second::mark_all(reference, NAME, first, second, &mut plan, &mut marks);
        assert_eq!(found, expected);
        assert!(plan.iter().all(|record| *record == OLD_CLUSTER));
        assert!(marks.iter().all(|mark| *mark == OLD_MARK));
    }
}

/// Two lists in all their variety, and at times one of them damaged.
fn drawn(random: &mut Random) -> (Vec<u8>, Vec<u8>, [Vec<u8>; 2]) {
    let lists = match random.below(60) {
        0..=2 => worlds(random),
        3..=14 => crowd(random),
        15..=24 => strangers(random),
        _ => pair(random, 20),
    };
    let mut texts = lists.each_ref().map(Drawn::text);
    let list = random.below(8);
    if let Some(text) = texts.get_mut(list) {
        damage(random, text);
    }
    (lists[0].reference.clone(), lists[0].name.clone(), texts)
}

#[test]
fn one_call_leaves_what_plan_and_then_mark_of_each_leave() {
    let mut seen = Seen::default();
    for seed in 910_000..913_000 {
        let mut random = Random::new(seed);
        let (reference, name, [first, second]) = drawn(&mut random);
        let (mut plan, mut marks) = ([OLD_CLUSTER; 1_024], [OLD_MARK; 1_024]);
        let (mut all_plan, mut all_marks) = (plan, marks);
        let planned = second::plan(&reference, &name, &first, &second, &mut plan);
        let clusters = planned.unwrap_or(0) as usize;
        let from = random.below(clusters.max(1));
        let (mut score, mut undecided) = (0, 0);
        // From any cluster on, each third, and so each once.
        let step = if clusters % 3 == 0 { 1 } else { 3 };
        for number in 0..clusters {
            let asked = (from + number * step) % clusters;
            match second::mark(&reference, &name, &first, &second, &plan, asked, &mut marks) {
                Ok(Marked::Score(more)) => score += more,
                Ok(Marked::Undecided) => undecided += 1,
                Err(refusal) => panic!("{refusal:?}"),
            }
        }
        let marked =
            second::mark_all(&reference, &name, &first, &second, &mut all_plan, &mut all_marks);
        assert_eq!(marked, planned.map(|count| (count, score)));
        assert_eq!((all_plan, all_marks), (plan, marks));
        seen.note("refused", planned.is_err());
        seen.note("no cluster", planned == Ok(0));
        seen.note("one cluster", clusters == 1);
        seen.note("several clusters", clusters > 2);
        seen.note("undecided beside decided", undecided > 0 && score > 0);
        seen.note("undecided alone", undecided > 0 && clusters == 1);
    }
    seen.assert_each(30);
}
