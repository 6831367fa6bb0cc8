//! The plan: plans by hand, and random plans against the gap rule counted out anew for every entry.

mod common;

use common::calls::Case;
use common::random::Random;
use common::seen::Seen;
use common::world::World;
use second::merged::merged;
use second::Entry;

const CASES: u64 = 20_000;

/// Why the merged order is cut before an entry or not: it is in the second and in the last.
const REASONS: [&str; 6] =
    ["reached", "g is 0", "gap no longer than g", "period 1", "longer period", "wide gap"];

/// An entry and its list, 0 for list 1.
type Listed<'a> = (usize, &'a Entry);

/// The gap rule before an entry that starts at `start`, for the entries of the current cluster.
fn reason(reference: &[u8], cluster: &[Listed], start: usize) -> &'static str {
    let end = cluster.iter().map(|(_, entry)| entry.end()).max().expect("not empty");
    let g = g(cluster);
    let equal_apart = |q: &usize| (end..start - q).all(|i| reference[i] == reference[i + q]);
    if start < end {
        REASONS[0]
    } else if g == 0 {
        REASONS[1]
    } else if start - end <= g {
        REASONS[2]
    } else {
        match (1..=g).find(equal_apart) {
            Some(1) => REASONS[3],
            Some(_) => REASONS[4],
            None => REASONS[5],
        }
    }
}

/// max(B_1 + A_2, B_2 + A_1), summed over the cluster anew.
fn g(cluster: &[Listed]) -> usize {
    let sum = |list: usize, part: fn(i64, i64, i64) -> i64| -> i64 {
        let entries = cluster.iter().filter(|(of, _)| *of == list);
        let parts = entries.map(|(_, entry)| {
            let [one, other] = entry.copies.map(|number| entry.allele(number).len() as i64);
            part(entry.reference.len() as i64, one.min(other), one.max(other)).max(0)
        });
        parts.sum()
    };
    let shrink = |list| sum(list, |reference, shorter, _| reference - shorter);
    let growth = |list| sum(list, |reference, _, longer| longer - reference);
    (growth(0) + shrink(1)).max(growth(1) + shrink(0)) as usize
}

#[test]
fn random_plans_follow_the_gap_rule() {
    let mut seen = Seen::default();
    for seed in 800_000..800_000 + CASES {
        let mut random = Random::new(seed);
        let world = World::new(&mut random, 10);
        let lists = world.lists();
        let mut expected: Vec<(u32, u32)> = Vec::new();
        let mut cluster: Vec<Listed> = Vec::new();
        for (number, item) in merged(lists).into_iter().enumerate() {
            let entry = item.of(lists);
            let why = match cluster.is_empty() {
                true => None,
                false => Some(reason(&world.reference, &cluster, entry.start())),
            };
            for reason in REASONS {
                seen.note(reason, why == Some(reason));
            }
            if why.is_none_or(|why| [REASONS[1], REASONS[5]].contains(&why)) {
                cluster.clear();
                expected.push((number as u32, 0));
            }
            cluster.push((item.list, entry));
            expected.last_mut().expect("a cluster").1 += 1;
        }
        assert_eq!(Case::of(&world).plan_pairs(), expected);
    }
    seen.assert_each(500);
}

#[test]
fn no_entries_make_no_cluster() {
    assert_eq!(Case::new("A", &[], &[]).plan_pairs(), []);
}

#[test]
fn with_g_0_touching_spans_are_cut_and_overlapping_are_not() {
    let touching = Case::new("ACGT", &["1 AC GT 1/1", "3 G A 1/1"], &[]);
    assert_eq!(touching.plan_pairs(), [(0, 1), (1, 1)]);
    let overlapping = Case::new("ACGT", &["1 AC GT 1/1"], &["2 C A 1/1", "3 G A 1/1"]);
    assert_eq!(overlapping.plan_pairs(), [(0, 2), (2, 1)]);
}

#[test]
fn the_largest_end_is_not_always_the_last() {
    let case = Case::new("ACGTACGT", &["1 ACGTA TCGTA 1/1"], &["2 C A 1/1", "5 A C 1/1"]);
    assert_eq!(case.plan_pairs(), [(0, 3)]);
}

#[test]
fn growth_counts_against_the_other_lists_shrinking() {
    // A_1 = 1 and A_2 = 1 do not add up: g is 1, and the gap GT is cut.
    let shrinking = Case::new("AACGTCA", &["1 AA A 1/1"], &["2 AC A 1/1", "6 C A 1/1"]);
    assert_eq!(shrinking.plan_pairs(), [(0, 2), (2, 1)]);
    // B_1 = 1 and A_2 = 1 do: g is 2, and the gap GT is too short.
    let both = Case::new("AACGTCA", &["1 AA AAA 1/1"], &["2 AC A 1/1", "6 C A 1/1"]);
    assert_eq!(both.plan_pairs(), [(0, 3)]);
    let mirrored = Case::new("AACGTCA", &["2 AC A 1/1", "6 C A 1/1"], &["1 AA AAA 1/1"]);
    assert_eq!(mirrored.plan_pairs(), [(0, 3)]);
}

#[test]
fn only_the_copy_alleles_count() {
    // The second ALT, which no copy has, would make g 3.
    let unused = Case::new("AACGTCA", &["1 A C,AAAA 0/1", "6 C A 1/1"], &[]);
    assert_eq!(unused.plan_pairs(), [(0, 1), (1, 1)]);
    let used = Case::new("AACGTCA", &["1 A C,AAAAAA 0/2", "6 C A 1/1"], &[]);
    assert_eq!(used.plan_pairs(), [(0, 2)]);
    // One copy grows by 1 and the other shrinks by 1, so A_1 = B_1 = 1, and g is 1.
    let unlike = Case::new("ACGTCA", &["1 AC A,ACC 1/2", "5 C A 1/1"], &[]);
    assert_eq!(unlike.plan_pairs(), [(0, 1), (1, 1)]);
}

#[test]
fn the_sums_begin_again_after_a_cut() {
    let records = ["1 TAT T 1/1", "8 G C 1/1", "9 T G 1/1"];
    let case = Case::new("TATGCAAGT", &records, &[]);
    assert_eq!(case.plan_pairs(), [(0, 1), (1, 1), (2, 1)]);
}
