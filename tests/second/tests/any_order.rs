//! Demand 3: once each cluster has been asked for, in any order, with repeats and refused calls
//! between, the marks are the same.

mod common;

use common::calls::{Case, OLD_CLUSTER, OLD_MARK};
use common::lists::{text, NAME};
use common::random::Random;
use common::seen::Seen;
use common::world::World;
use second::{Cluster, Marked};

/// A call that is refused; the marks must not change.
fn refused_call(random: &mut Random, case: &Case, plan: &[Cluster], marks: &mut Vec<u8>) {
    let before = marks.clone();
    let wrong_list = text(&["1 X A 1/1"]);
    let (reference, first, second) = (&case.reference, &case.first, &case.second);
    let mut full = plan.to_vec();
    full.resize(1_024, OLD_CLUSTER);
    let refusal = match random.below(6) {
        0 => second::mark(b"", NAME, first, second, &full, 0, marks),
        1 => second::mark(reference, NAME, first, second, &full[..1_023], 0, marks),
        2 => second::mark(reference, NAME, first, second, &full, 0, &mut marks[..1_023]),
        3 => second::mark(reference, NAME, first, &wrong_list, &full, 0, marks),
        4 => case.mark(plan, plan.len() + random.below(3), marks),
        _ => case.mark(&[Cluster { first: 1, count: 1 }], 0, marks),
    };
    let number = refusal.expect_err("a wrong call").number;
    assert!([1, 2, 9, 16, 17].contains(&number));
    assert_eq!(*marks, before);
}

/// Each cluster at least once, in random order.
fn random_order(random: &mut Random, clusters: usize) -> Vec<usize> {
    let mut order: Vec<usize> = (0..clusters).collect();
    let repeats = random.below(3);
    order.extend((0..repeats).map(|_| random.below(clusters)));
    for place in (1..order.len()).rev() {
        order.swap(place, random.below(place + 1));
    }
    order
}

#[test]
fn marks_do_not_depend_on_the_order_of_the_calls() {
    let mut seen = Seen::default();
    for seed in 500_000..504_000 {
        let mut random = Random::new(seed);
        let case = Case::of(&World::new(&mut random, 20));
        let (expected, score) = case.marks().expect("accepted");
        let plan = case.plan().expect("accepted");
        if plan.is_empty() {
            continue;
        }
        let mut marks = vec![OLD_MARK; 1_024];
        let mut scores = vec![0; plan.len()];
        for cluster in random_order(&mut random, plan.len()) {
            if random.once_in(3) {
                refused_call(&mut random, &case, &plan, &mut marks);
            }
            let before = marks.clone();
            let marked = case.mark(&plan, cluster, &mut marks).expect("a cluster of the plan");
            assert_only_its_marks_change(plan[cluster], marked, &before, &marks);
            if let Marked::Score(score) = marked {
                scores[cluster] = score;
            }
        }
        assert_eq!(marks[..expected.len()], *expected.as_bytes());
        assert!(marks[expected.len()..].iter().all(|mark| *mark == OLD_MARK));
        assert_eq!(scores.iter().sum::<u32>(), score);
        seen.note("several clusters", plan.len() > 1);
        seen.note("an undecided cluster", expected.contains('?'));
        seen.note("undecided beside decided", score > 0 && expected.contains('?'));
    }
    seen.assert_each(50);
}

fn assert_only_its_marks_change(cluster: Cluster, marked: Marked, before: &[u8], after: &[u8]) {
    let first = cluster.first as usize;
    let behind = first + cluster.count as usize;
    assert_eq!(before[..first], after[..first]);
    assert_eq!(before[behind..], after[behind..]);
    let own = &after[first..behind];
    match marked {
        Marked::Undecided => {
            assert!(own.len() > 12 && own.iter().all(|mark| *mark == b'?'));
        }
        Marked::Score(score) => {
            assert!(own.len() <= 12 && own.iter().all(|mark| b"+-0".contains(mark)));
            let chosen = own.iter().filter(|mark| **mark != b'0').count();
            assert_eq!(score as usize, chosen);
        }
    }
}
