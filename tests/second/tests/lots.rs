//! Recall for a reagent lot: by hand, at the bounds, and the totals of drawn runs against all their marks joined.

mod common;

use common::random::Random;
use common::seen::Seen;
use second::drawn::pairs::{crowd, pair};
use second::lot::Totals;
use second::merged::merged;
use second::{lot, Counts, Refusal, Run, Share};

const LOTS: u64 = 1_500;

fn counts([matched, unmatched, undecided]: [u32; 3]) -> Counts {
    Counts { matched, unmatched, undecided }
}

fn run(truth: [u32; 3], called: [u32; 3]) -> Run {
    Run { truth: counts(truth), called: counts(called) }
}

fn refused(number: u32) -> Refusal {
    Refusal { number, list: 0, line: 0, place: 0 }
}

#[test]
fn a_lot_by_hand() {
    let runs = [run([5, 1, 2], [4, 0, 0]), run([0, 0, 13], [3, 4, 0]), run([1, 2, 0], [0, 0, 7])];
    let told = lot(&runs).expect("accepted");
    let recall = Share { matched: 6, of: 9 };
    assert_eq!(told.truth, Totals { counts: counts([6, 3, 15]), entries: 24, share: recall });
    let precision = Share { matched: 7, of: 11 };
    assert_eq!(told.called, Totals { counts: counts([7, 4, 7]), entries: 18, share: precision });
    assert_eq!((recall.ppm(), precision.ppm()), (Some(666_666), Some(636_363)));
}

#[test]
fn parts_per_million_are_the_floor() {
    let all = |of: u64| (0..=of).map(move |matched| (matched, of));
    for (matched, of) in (1..=300).chain([1_000, 131_071, 131_072]).flat_map(all) {
        let ppm = Share { matched: matched as u32, of: of as u32 }.ppm().expect("not over zero");
        let (million, ppm) = (1_000_000 * matched, u64::from(ppm));
        assert!(ppm * of <= million && million < (ppm + 1) * of, "{matched}/{of}: {ppm}");
    }
}

#[test]
fn no_share_where_the_lower_number_is_zero() {
    let told = lot(&[run([0, 0, 512], [0, 0, 0])]).expect("accepted");
    assert_eq!((told.truth.entries, told.called.entries), (512, 0));
    for share in [told.truth.share, told.called.share] {
        assert_eq!((share, share.ppm()), (Share { matched: 0, of: 0 }, None));
    }
    let none_found = lot(&[run([0, 1, 511], [1, 0, 0])]).expect("accepted");
    assert_eq!(none_found.truth.share.ppm(), Some(0));
    assert_eq!(none_found.called.share.ppm(), Some(1_000_000));
}

#[test]
fn row_30_one_to_256_runs() {
    let full = run([512, 0, 0], [0, 512, 0]);
    for number in [0, 257, 300] {
        assert_eq!(lot(&vec![full; number]), Err(refused(30)));
    }
    for number in [1, 255, 256] {
        let told = lot(&vec![full; number]).expect("accepted");
        let entries = 512 * number as u32;
        assert_eq!((told.truth.entries, told.called.entries), (entries, entries));
        assert_eq!(told.truth.share, Share { matched: entries, of: entries });
        assert_eq!(told.called.share, Share { matched: 0, of: entries });
    }
}

#[test]
fn row_31_a_runs_counts_in_a_list_and_row_30_first() {
    let (good, most) = (run([1, 2, 3], [4, 5, 6]), u32::MAX);
    let large = [
        [513, 0, 0],
        [0, 512, 1],
        [171, 171, 171],
        [most, 0, 0],
        [most, 1, 0],
        [1 << 31, 1 << 31, 0],
        [most; 3],
    ];
    for (counts, turned) in large.into_iter().flat_map(|large| [(large, 0), (large, 1), (large, 2)])
    {
        let mut counts = counts;
        counts.rotate_right(turned);
        for wrong in [run(counts, [0; 3]), run([0; 3], counts), run(counts, counts)] {
            for runs in [vec![wrong], vec![good, wrong], vec![wrong, good], vec![wrong; 256]] {
                assert_eq!(lot(&runs), Err(refused(31)));
            }
            assert_eq!(lot(&[wrong; 257]), Err(refused(30)));
        }
    }
    for counts in [[512, 0, 0], [0, 511, 1], [171, 170, 171], [0; 3]] {
        assert!(lot(&[run(counts, [0; 3]), run([0; 3], counts), run(counts, counts)]).is_ok());
    }
}

/// The counts of a drawn run, and the marks of each list that they are of.
fn drawn_run(random: &mut Random) -> (Run, [Vec<u8>; 2]) {
    let lists = if random.once_in(3) { crowd(random) } else { pair(random, 8) };
    let [first, second] = lists.each_ref().map(|list| list.text());
    let (reference, name) = (&lists[0].reference, &lists[0].name);
    let entries = [&first, &second]
        .map(|text| second::read(reference, name, 1, text).expect("accepted").entries());
    let items = merged(entries.each_ref().map(Vec::as_slice));
    let (mut plan, mut marks) = (vec![second::Cluster::default(); 1_024], vec![b'+'; 1_024]);
    second::mark_all(reference, name, &first, &second, &mut plan, &mut marks).expect("accepted");
    for _ in 0..random.below(3) {
        let place = random.below(items.len() + 1);
        marks[place] = *random.pick(b"+-0?.\0\xff");
    }
    let [truth, called] = second::count(reference, name, &first, &second, &marks).expect("counted");
    let mut own = [Vec::new(), Vec::new()];
    for (item, mark) in items.iter().zip(&marks) {
        own[item.list].push(*mark);
    }
    (Run { truth, called }, own)
}

#[test]
fn each_total_is_the_count_over_the_marks_of_all_runs_joined() {
    let mut seen = Seen::default();
    for seed in 900_000..900_000 + LOTS {
        let random = &mut Random::new(seed);
        let (mut runs, mut joined) = (Vec::new(), [Vec::new(), Vec::new()]);
        for _ in 0..random.between(1, 9) {
            let (run, own) = drawn_run(random);
            runs.push(run);
            joined[0].extend(&own[0]);
            joined[1].extend(&own[1]);
        }
        let told = lot(&runs).expect("accepted");
        for (told, marks) in [told.truth, told.called].iter().zip(&joined) {
            let count =
                |kinds: &[u8]| marks.iter().filter(|mark| kinds.contains(mark)).count() as u32;
            let all = [count(b"+-"), count(b"0"), count(b"?")];
            assert_eq!(told.counts, counts(all));
            assert_eq!(told.entries, all.iter().sum::<u32>());
            assert_eq!(told.share, Share { matched: all[0], of: all[0] + all[1] });
            seen.note("matched", all[0] > 0);
            seen.note("unmatched", all[1] > 0);
            seen.note("undecided", all[2] > 0);
            seen.note("no share", told.share.of == 0);
            seen.note("no mark", told.entries < marks.len() as u32);
        }
    }
    seen.assert_each(50);
}
