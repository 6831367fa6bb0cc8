//! What `drive` demands of a call: where it is refused, that all it is lent keeps its value; where it is answered, that so does all
//! behind what it says that it wrote.

mod common;

use common::seen::Seen;
use second::drive::case::{Call, Case};
use second::drive::draw::{draw, Asked};

fn cases(asked: Asked, count: usize) -> impl Iterator<Item = Case> {
    (0..).flat_map(move |number| draw(asked, 3, number)).take(count)
}

/// How many bytes of each buffer that it may write an answered call may have changed.
fn written(case: &Case) -> Vec<usize> {
    let value = case.expected.answer.values[0] as usize;
    match &case.call {
        Call::Normal { .. } => vec![value],
        Call::Plan { .. } => vec![8 * value],
        Call::Entries { .. } => vec![16 * value],
        Call::Mark { plan, cluster, .. } => {
            vec![(plan[*cluster].first + plan[*cluster].count) as usize]
        }
        Call::MarkAll { .. } => {
            let plan = &case.expected.left[0][..8 * value];
            let count = |record: &[u8]| u32::from_le_bytes(record[4..].try_into().expect("four"));
            vec![8 * value, plan.chunks(8).map(count).sum::<u32>() as usize]
        }
        Call::Allele { .. } | Call::Count { .. } | Call::Version => vec![],
    }
}

#[test]
fn nothing_is_left_changed_but_what_an_answered_call_says() {
    for asked in [Asked::Normal, Asked::Plan, Asked::Mark, Asked::MarkAll, Asked::Entries] {
        let mut seen = Seen::default();
        for case in cases(asked, 1_000) {
            let lent = case.lent();
            let lent = &lent[lent.len() - case.writes()..];
            assert_eq!(lent.len(), case.expected.left.len());
            let is_refused = case.expected.answer.number != 0;
            let written = if is_refused { vec![0; lent.len()] } else { written(&case) };
            let mut changed = 0;
            for (((_, lent), left), written) in lent.iter().zip(&case.expected.left).zip(written) {
                assert_eq!(lent.len(), left.len());
                assert_eq!(lent[written..], left[written..]);
                changed += usize::from(lent[..written] != left[..written]);
            }
            seen.note("refused", is_refused);
            seen.note("answered, and changed", changed > 0);
        }
        seen.assert_each(120);
    }
}

#[test]
fn whole_pairs_are_marked_with_undecided_clusters_beside_decided_ones() {
    let (mut beside, mut several) = (0, 0);
    for case in cases(Asked::MarkAll, 2_000) {
        let answer = &case.expected.answer;
        if answer.number != 0 {
            continue;
        }
        let marks = &case.expected.left[1][..written(&case)[1]];
        beside += usize::from(marks.contains(&b'?') && answer.values[1] > 0);
        several += usize::from(answer.values[0] > 1);
    }
    assert!(beside > 20 && several > 200, "{beside} and {several}");
}
