//! A row of calls on one buffer of marks: the plan, then its clusters in any order, with repeats and
//! other calls between, of which most are refused.

use super::cost::{strings, COSTLY, STRINGS_MOST};
use super::two_lists::{any_length, any_plan, any_record, lists, TwoLists};
use super::{any_room, beyond};
use crate::card::ENTRIES_MOST;
use crate::drawn::list::Drawn;
use crate::drawn::random::Random;
use crate::drive::case::{Call, Case};
use crate::Cluster;

/// Each cluster is asked for, but not more calls than these are made for them.
const ASKED_MOST: usize = 8;

/// The calls so far, and the plan and the marks as they left them.
struct Row {
    lists: [Drawn; 2],
    two: TwoLists,
    plan: Vec<Cluster>,
    marks: Vec<u8>,
    cases: Vec<Case>,
}

pub fn row(random: &mut Random) -> Vec<Case> {
    let lists = lists(random);
    let (two, plan, length) = (TwoLists::of(&lists), any_plan(random), any_length(random));
    let mut row = Row { lists, two, plan, marks: any_room(random, length), cases: Vec::new() };
    let clusters = row.call_plan();
    for cluster in row.order(random, clusters) {
        while random.once_in(2) {
            row.call_other(random, cluster, clusters);
        }
        row.call(row.two.clone(), row.plan.clone(), cluster);
    }
    row.cases
}

impl Row {
    /// Returns the number of clusters, 0 where the call is refused.
    fn call_plan(&mut self) -> usize {
        let TwoLists { reference, name, texts } = &self.two;
        let call = Call::Plan { texts: texts.clone(), plan: self.plan.clone() };
        self.cases.push(Case::new(reference, name, call));
        let clusters = crate::plan(reference, name, &texts[0], &texts[1], &mut self.plan);
        clusters.unwrap_or(0) as usize
    }

    fn call(&mut self, two: TwoLists, plan: Vec<Cluster>, cluster: usize) {
        let TwoLists { reference, name, texts } = two;
        let call = Call::Mark { texts, plan, cluster, marks: self.marks.clone() };
        let case = Case::new(&reference, &name, call);
        self.marks = case.expected.left[0].clone();
        self.cases.push(case);
    }

    /// A call with something wrong in it, mostly.
    fn call_other(&mut self, random: &mut Random, cluster: usize, clusters: usize) {
        let (mut two, mut plan, mut asked) = (self.two.clone(), self.plan.clone(), cluster);
        match random.below(16) {
            0 => drop(self.call_plan()),
            1 => plan.truncate(random.between(ENTRIES_MOST - 2, ENTRIES_MOST - 1)),
            2 => plan[clusters..].fill_with(|| any_record(random)),
            3 | 4 if clusters > 0 => change_plan(random, &mut plan, clusters),
            3..=5 => asked = beyond(random, cluster, clusters),
            _ => two = TwoLists::spoiled(random, &self.lists),
        }
        self.call(two, plan, asked);
    }

    /// Each cluster once, some again, in any order; where there is none, the first of them.
    fn order(&self, random: &mut Random, clusters: usize) -> Vec<usize> {
        let strings = strings(&self.two);
        let mut order: Vec<usize> = (0..clusters).collect();
        order.retain(|cluster| strings[*cluster] <= STRINGS_MOST || random.once_in(COSTLY));
        for _ in 0..random.below(3).min(order.len()) {
            order.push(*random.pick(&order));
        }
        for place in (1..order.len()).rev() {
            order.swap(place, random.below(place + 1));
        }
        order.truncate(ASKED_MOST);
        if clusters == 0 {
            order = vec![0; 3];
        }
        order
    }
}

/// Changes one of the records that are judged, or takes it away.
pub fn change_plan(random: &mut Random, plan: &mut Vec<Cluster>, clusters: usize) {
    let number = random.below(clusters);
    let by = *random.pick(&[1, u32::MAX, 1 << 8, 1 << 16, 1 << 31]);
    let record = &mut plan[number];
    match random.below(6) {
        0 => record.first = record.first.wrapping_add(by),
        1 => record.count = record.count.wrapping_add(by),
        2 => *record = Cluster { first: record.count, count: record.first },
        3 => *record = any_record(random),
        4 => record.count = 0,
        _ => plan.rotate_left(1),
    }
}
