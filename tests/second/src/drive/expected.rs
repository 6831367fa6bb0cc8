//! What this package answers to a call, and what it leaves of what the call may write.

use super::case::{entries_bytes, plan_bytes, Answer, Call};
use crate::{Counts, Marked, Refusal, Shown};

/// The value that says that a cluster is undecided.
const UNDECIDED: u32 = u32::MAX;

pub fn expected(reference: &[u8], name: &[u8], call: &Call) -> (Answer, Vec<Vec<u8>>) {
    match call {
        Call::Allele { text, entry, allele } => {
            let shown = crate::allele(reference, name, text, *entry, *allele);
            (shown.map_or_else(|refusal| Answer::refused(refusal, 1), Answer::shown), vec![])
        }
        Call::Normal { text, out } => {
            let mut left = out.clone();
            let written = crate::normal(reference, name, text, &mut left);
            (Answer::of(written.map(|length| length as u32)), vec![left])
        }
        Call::Plan { texts: [first, second], plan } => {
            let mut left = plan.clone();
            let clusters = crate::plan(reference, name, first, second, &mut left);
            (Answer::of(clusters), vec![plan_bytes(&left)])
        }
        Call::Mark { texts: [first, second], plan, cluster, marks } => {
            let mut left = marks.clone();
            let marked = crate::mark(reference, name, first, second, plan, *cluster, &mut left);
            let value = |marked| match marked {
                Marked::Score(score) => score,
                Marked::Undecided => UNDECIDED,
            };
            (Answer::of(marked.map(value)), vec![left])
        }
        Call::Count { texts: [first, second], marks } => {
            let counts = crate::count(reference, name, first, second, marks);
            (counts.map_or_else(|refusal| Answer::refused(refusal, 6), Answer::counted), vec![])
        }
        Call::MarkAll { texts: [first, second], plan, marks } => {
            let (mut plan, mut marks) = (plan.clone(), marks.clone());
            let marked = crate::mark_all(reference, name, first, second, &mut plan, &mut marks);
            let given = |(clusters, score)| Answer::given(vec![clusters, score]);
            let answer = marked.map_or_else(|refusal| Answer::refused(refusal, 2), given);
            (answer, vec![plan_bytes(&plan), marks])
        }
        Call::Entries { texts: [first, second], entries } => {
            let mut left = entries.clone();
            let count = crate::entries(reference, name, first, second, &mut left);
            (Answer::of(count), vec![entries_bytes(&left)])
        }
        // The driver asks whether the library's version is the header's.
        Call::Version => (Answer::given(vec![0]), vec![]),
    }
}

impl Answer {
    fn of(value: Result<u32, Refusal>) -> Answer {
        value.map_or_else(|refusal| Answer::refused(refusal, 1), |value| Answer::given(vec![value]))
    }

    fn given(values: Vec<u32>) -> Answer {
        Answer { number: 0, list: 0, line: 0, place: 0, values }
    }

    /// Each of so many values is 0.
    fn refused(refusal: Refusal, values: usize) -> Answer {
        let Refusal { number, list, line, place } = refusal;
        Answer { number, list, line, place, values: vec![0; values] }
    }

    /// Those of list 1 first.
    fn counted(counts: [Counts; 2]) -> Answer {
        let three = |count: Counts| [count.matched, count.unmatched, count.undecided];
        Answer::given(counts.map(three).concat())
    }

    /// List 0 is the reference, 1 the text.
    fn shown(shown: Shown) -> Answer {
        let (list, start, length) = match shown {
            Shown::Reference { start, length } => (0, start, length),
            Shown::Text { start, length } => (1, start, length),
        };
        Answer { number: 0, list, line: start as u32, place: 0, values: vec![length as u32] }
    }
}
