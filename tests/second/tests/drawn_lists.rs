//! What is drawn for `drive` is what it says: lists as drawn are accepted, sizes are met, every answer
//! that a call can give occurs, and a row of calls of `mark` is made on one buffer.

mod common;

use common::random::Random;
use second::drawn::list::Drawn;
use second::drawn::pairs::{apart, crowd, large, pair, strangers, worlds_and_crowd};
use second::drawn::sizes::{sized_list, sized_reference, sized_text};
use second::drive::case::{Answer, Call, Case};
use second::drive::draw::{draw, Asked, CALLS};
use second::drive::frame::Frames;
use second::drive::kind::{kinds, kinds_beside, Kind};
use second::drive::tally::Tally;
use second::{Cluster, Refusal};
use std::collections::BTreeSet;

fn read(list: &Drawn) -> Result<usize, Refusal> {
    let read = second::read(&list.reference, &list.name, 1, &list.text());
    read.map(|read| read.records.len())
}

#[test]
fn a_list_as_drawn_is_accepted() {
    for seed in 800_000..804_000 {
        let list = Drawn::new(&mut Random::new(seed), 12);
        assert_eq!(read(&list), Ok(list.records.len()), "{}", list.text().escape_ascii());
    }
}

#[test]
fn sizes_are_met_and_one_too_many_refused() {
    for seed in 810_000..810_060 {
        let mut random = Random::new(seed);
        let list = sized_reference(&mut random);
        let reference = &list.reference;
        let judged = second::reference::read(reference).is_ok();
        assert_eq!(judged, (1..=65_535).contains(&reference.len()));

        let list = sized_list(&mut random);
        let number = read(&list).map_or_else(|refusal| refusal.number, |_| 0);
        assert!(matches!((list.records.len(), number), (..=512, 0) | (513.., 15) | (_, 3)));

        let mut list = Drawn::new(&mut random, 3);
        let text = sized_text(&mut random, &mut list);
        let refusal = second::read(&list.reference, &list.name, 1, &text).err();
        let is_refused = [0, 1].contains(&text.len()) || text.len() > 65_536;
        assert_eq!(refusal.is_some(), is_refused, "{} bytes: {refusal:?}", text.len());
    }
}

#[test]
fn two_lists_as_drawn_are_accepted_on_one_reference() {
    for seed in 820_000..820_400 {
        let random = &mut Random::new(seed);
        let drawn = [pair(random, 20), crowd(random), strangers(random), apart(random)];
        let others = [large(random), worlds_and_crowd(random)];
        for [first, second] in drawn.into_iter().chain(others) {
            assert_eq!((&first.reference, &first.name), (&second.reference, &second.name));
            assert_eq!(read(&first), Ok(first.records.len()));
            assert_eq!(read(&second), Ok(second.records.len()));
        }
    }
}

fn cases(asked: Asked, count: usize) -> impl Iterator<Item = Case> {
    (0..).flat_map(move |number| draw(asked, 1, number)).take(count)
}

#[test]
fn every_answer_occurs_and_no_other_counts_as_the_same() {
    for (_, asked) in CALLS {
        let (mut same, mut changed) = (Tally::default(), Tally::default());
        for (number, case) in cases(asked, 10_000).enumerate() {
            let mut other = case.expected.clone();
            let (buffers, values) = (other.left.len(), other.answer.values.len());
            // One of the buffers that may be written, where there are some and they are not empty.
            let left = other.left.get_mut(number / 2 % buffers.max(1));
            let byte = left.and_then(|left| {
                let length = left.len().max(1);
                left.get_mut(number % length)
            });
            let Answer { number: row, list, line, place, .. } = &mut other.answer;
            match (number % 4, byte) {
                (0 | 2, None) => other.changed = true,
                (0 | 2, Some(byte)) => *byte ^= 1,
                (1, _) => other.answer.values[number % values] ^= 1,
                _ => *[row, list, line, place][number / 4 % 4] ^= 1,
            }
            changed.note(case.clone(), Some(other));
            let told = case.expected.clone();
            same.note(case, Some(told));
        }
        assert_eq!((same.cases, same.differences), (10_000, 0));
        assert_eq!(same.rare_kinds(asked), [""; 0]);
        assert_eq!(changed.differences, 10_000);
    }
}

#[test]
fn changes_by_bytes_come_upon_every_answer_of_every_call_and_no_other() {
    let (mut seen, mut beside) = (BTreeSet::new(), BTreeSet::new());
    for case in cases(Asked::Mutated, 100_000) {
        seen.insert(Kind::of(&case));
        beside.extend(Kind::beside(&case));
    }
    assert_eq!(seen, kinds(Asked::Mutated).into_iter().collect());
    assert_eq!(beside, kinds_beside(Asked::Mutated).into_iter().collect());
}

#[test]
fn changed_lists_are_counted_with_their_own_marks_and_with_others() {
    let (mut own, mut others, mut plan) = (0, 0, vec![Cluster::default(); 1_024]);
    for Case { reference, name, call, .. } in cases(Asked::Mutated, 10_000) {
        let Call::Count { texts: [one, two], marks } = call else { continue };
        let mut marked = marks.clone();
        let all = second::mark_all(&reference, &name, &one, &two, &mut plan, &mut marked);
        match all {
            Ok((1.., _)) if marked == marks => own += 1,
            Ok((1.., _)) => others += 1,
            _ => {}
        }
    }
    assert!(own > 100 && others > 100, "{own} and {others}");
}

#[test]
fn a_row_of_calls_of_mark_is_made_on_one_buffer() {
    for number in 0..400 {
        let (mut frames, mut left) = (Frames::default(), None);
        for case in draw(Asked::Mark, 2, number) {
            let frame = frames.frame(&case);
            let Call::Mark { marks, .. } = &case.call else { continue };
            // The marks stand before the cluster's number: their count says that they are there.
            let count = &frame[frame.len() - 12..frame.len() - 8];
            if let Some(left) = &left {
                assert_eq!((marks, count), (left, &[0xff; 4][..]));
            }
            left = Some(case.expected.left[0].clone());
        }
    }
}
