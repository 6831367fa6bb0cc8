//! The same lists in any case: every call answers the same but for the bytes that `allele` shows and that are carried.

mod common;

use common::calls::{normal, Case, OLD_MARK};
use common::lists::NAME;
use common::random::Random;
use common::seen::Seen;
use second::drawn::list::{Drawn, ALT, CHROM, INFO, REF};
use second::drawn::masked::{in_another_case, masked};
use second::drawn::pairs::{pair, worlds};

const CASES: u64 = 2_000;

/// The call's inputs, with the name that the lists of `Case` have.
fn case(lists: &[Drawn; 2]) -> Case {
    let named = |list: &Drawn| {
        let mut list = list.clone();
        for fields in &mut list.records {
            fields[CHROM] = NAME.to_vec();
            fields[INFO] = b"dp=Acgtn".to_vec(); // Else a line may be as long as can be.
        }
        list.text()
    };
    let [first, second] = lists.each_ref().map(named);
    Case { reference: lists[0].reference.clone(), first, second }
}

fn note(seen: &mut Seen, upper: &[Drawn; 2], lower: &[Drawn; 2]) {
    let alleles = |lists: &[Drawn; 2]| -> Vec<Vec<u8>> {
        lists
            .iter()
            .flat_map(|list| &list.records)
            .map(|fields| fields[REF..=ALT].concat())
            .collect()
    };
    let is_reference = upper[0].reference != lower[0].reference;
    let are_alleles = alleles(upper) != alleles(lower);
    seen.note("the reference alone", is_reference && !are_alleles);
    seen.note("the alleles alone", !is_reference && are_alleles);
    seen.note("both", is_reference && are_alleles);
}

#[test]
fn plans_marks_counts_and_entries_are_those_of_upper_case() {
    let mut seen = Seen::default();
    for seed in 900_000..900_000 + CASES {
        let random = &mut Random::new(seed);
        let upper = if random.once_in(20) { worlds(random) } else { pair(random, 10) };
        let lower = masked(random, upper.clone());
        note(&mut seen, &upper, &lower);
        let (upper, lower) = (case(&upper), case(&lower));
        let (plan, marks) = (upper.plan(), upper.marks());
        seen.note("matched", marks.as_ref().is_ok_and(|(_, score)| *score > 1));
        seen.note("several clusters", plan.as_ref().is_ok_and(|plan| plan.len() > 1));
        assert_eq!((&lower.plan(), &lower.marks()), (&plan, &marks));
        assert_eq!(lower.entries(), upper.entries());
        assert_eq!(lower.printed(), upper.printed());
        let (mut of_upper, mut of_lower) = (vec![OLD_MARK; 1_024], vec![OLD_MARK; 1_024]);
        let plan = plan.expect("accepted");
        for cluster in 0..=plan.len() {
            let one = upper.mark(&plan, cluster, &mut of_upper);
            assert_eq!(lower.mark(&plan, cluster, &mut of_lower), one);
        }
        assert_eq!(of_lower, of_upper);
        assert_eq!(lower.count(&of_lower), upper.count(&of_upper));
    }
    seen.assert_each(100);
}

#[test]
fn the_written_text_is_that_of_upper_case_and_is_its_own_normal_text() {
    let mut seen = Seen::default();
    for seed in 910_000..910_000 + 2 * CASES {
        let random = &mut Random::new(seed);
        let upper = pair(random, 10);
        let lower = masked(random, upper.clone());
        note(&mut seen, &upper, &lower);
        let (upper, lower) = (case(&upper), case(&lower));
        for (of_upper, of_lower) in [(&upper.first, &lower.first), (&upper.second, &lower.second)] {
            let written = normal(&upper.reference, NAME, of_upper).expect("accepted");
            assert_eq!(normal(&lower.reference, NAME, of_lower).as_ref(), Ok(&written));
            assert_eq!(normal(&lower.reference, NAME, &written).as_ref(), Ok(&written));
            seen.note("as read in upper case", written == *of_upper && of_lower != of_upper);
            seen.note("in another form", written != *of_upper && of_lower != of_upper);
        }
    }
    seen.assert_each(100);
}

#[test]
fn alleles_are_shown_in_the_same_place_with_the_bytes_lent() {
    let mut recased = [0; 3];
    for seed in 920_000..920_000 + CASES {
        let random = &mut Random::new(seed);
        let upper = pair(random, 10);
        let (upper, lower) = (case(&upper), case(&masked(random, upper.clone())));
        for entry in 0..10 {
            for allele in 0..4 {
                let show =
                    |case: &Case| second::allele(&case.reference, NAME, &case.first, entry, allele);
                let shown = show(&upper);
                assert_eq!(show(&lower), shown);
                let Ok(shown) = shown else { continue };
                let bytes = shown.bytes(&upper.reference, &upper.first);
                let lent = shown.bytes(&lower.reference, &lower.first);
                assert!(lent.eq_ignore_ascii_case(bytes));
                recased[allele] += usize::from(lent != bytes);
            }
        }
    }
    assert!(recased.iter().all(|count| *count > 100), "{recased:?}");
}

#[test]
fn half_of_what_is_drawn_stays_in_upper_case() {
    let mut upper = 0;
    for seed in 940_000..941_000 {
        let random = &mut Random::new(seed);
        let [list] = [Drawn::new(random, 6)];
        let [drawn] = masked(random, [list.clone()]);
        upper += usize::from((drawn.text(), drawn.reference) == (list.text(), list.reference));
    }
    assert!((450..600).contains(&upper), "{upper}");
}

#[test]
fn a_recased_allele_differs_in_case_and_in_nothing_else() {
    let random = &mut Random::new(930_000);
    for allele in [&b"A"[..], b"n", b"AcGtN", b"acgtacgtacgt"] {
        for _ in 0..50 {
            let other = in_another_case(random, allele);
            assert!(other != allele && other.eq_ignore_ascii_case(allele));
        }
    }
}
