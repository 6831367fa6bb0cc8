//! What is drawn as a large cluster is one: of 12 entries or 13, with long alleles, on a long stretch, or both, and of all,
//! some and none of its entries matched. The pruned search finds what the definition demands there too.

mod common;

use common::calls::Case;
use common::random::Random;
use common::seen::Seen;
use second::best::best;
use second::best_pruned::best_pruned;
use second::drawn::large::large_world;

#[test]
fn each_is_one_cluster_of_12_or_13_entries() {
    let mut seen = Seen::default();
    for seed in 900_000..901_000 {
        let world = large_world(&mut Random::new(seed));
        let count = world.lists.iter().map(Vec::len).sum::<usize>();
        assert_eq!(Case::of(&world).plan_pairs(), [(0, count as u32)], "seed {seed}");
        let entries = || world.lists.iter().flatten();
        let is_long = entries().all(|entry| entry.alleles().any(|allele| allele.len() == 64));
        let first = entries().map(|entry| entry.start()).min().expect("entries");
        let end = entries().map(|entry| entry.end()).max().expect("entries");
        let is_wide = end - first >= 2_000;
        assert!(is_long || is_wide, "seed {seed}");
        for (of_12, of_13, is_so) in [
            ("12, long", "13, long", is_long && !is_wide),
            ("12, wide", "13, wide", !is_long && is_wide),
            ("12, both", "13, both", is_long && is_wide),
        ] {
            seen.note(of_12, is_so && count == 12);
            seen.note(of_13, is_so && count == 13);
        }
    }
    seen.assert_each(80);
}

#[test]
fn both_searches_find_the_same_pair() {
    let (mut seen, mut searched) = (Seen::default(), 0);
    for seed in 910_000..910_090 {
        let world = large_world(&mut Random::new(seed));
        if world.lists.iter().map(Vec::len).sum::<usize>() != 12 {
            continue;
        }
        let found = best_pruned(&world.reference, world.lists());
        assert_eq!(found, best(&world.reference, world.lists()), "seed {seed}");
        searched += 1;
        seen.note("none", found.score == 0);
        seen.note("some", (1..12).contains(&found.score));
        seen.note("all", found.score == 12);
    }
    seen.assert_each(8);
    assert!(searched > 50);
}
