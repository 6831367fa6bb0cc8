//! A row of calls on two small lists that are accepted, each with one to four changes by bytes in what
//! it is lent.

use super::marks::change_plan;
use super::one_list::{any_allele, room_for};
use super::two_lists::{any_length, any_marks, any_plan, TwoLists};
use super::whole_pair::any_entries;
use super::{any_room, beyond};
use crate::card::ENTRIES_MOST;
use crate::drawn::list::Drawn;
use crate::drawn::masked::masked;
use crate::drawn::mutate::mutate;
use crate::drawn::pairs::{crowd, pair};
use crate::drawn::random::Random;
use crate::drive::case::{Call, Case};
use crate::Cluster;

/// So many calls are made on lists that were drawn once.
const CALLS: usize = 50;

/// What is changed for each call of a row.
struct Row {
    two: TwoLists,
    /// How many records each list has.
    records: [usize; 2],
    /// Their plan, and behind its clusters any records.
    plan: Vec<Cluster>,
    clusters: usize,
    marks: Vec<u8>,
    /// Parts of these come into what is changed.
    other: TwoLists,
}

pub fn row(random: &mut Random) -> Vec<Case> {
    let (lists, other) = (small_lists(random), small_lists(random));
    let records = lists.each_ref().map(|list| list.records.len());
    let (two, other) = (TwoLists::of(&lists), TwoLists::of(&other));
    let mut plan = any_plan(random);
    plan.resize(ENTRIES_MOST, Cluster::default());
    let clusters = write_plan(&two, &mut plan);
    let marks = any_room(random, ENTRIES_MOST);
    let row = Row { two, records, plan, clusters, marks, other };
    (0..CALLS).map(|_| row.call(random)).collect()
}

/// Few entries, so that a call is quick; or as many as a cluster that is just decided, or just not.
fn small_lists(random: &mut Random) -> [Drawn; 2] {
    let most = *random.pick(&[3, 4, 6, 6]);
    let lists = match random.below(40) {
        0 => crowd(random),
        1..=8 => long_alleles(random),
        _ => pair(random, most),
    };
    masked(random, lists)
}

/// Lists that have nothing to do with one another, on up to 300 bases, with alleles of up to 64.
fn long_alleles(random: &mut Random) -> [Drawn; 2] {
    let first = Drawn::new(random, 3);
    let count = random.below(3);
    let second = first.beside(random, count);
    [first, second]
}

impl Row {
    fn call(&self, random: &mut Random) -> Case {
        let two = self.changed(random);
        let TwoLists { reference, name, texts } = &two;
        let list = random.below(2);
        let text = texts[list].clone();
        let call = match random.below(36) {
            0..=4 => {
                let (entry, allele) = any_allele(random, self.records[list]);
                Call::Allele { text, entry, allele }
            }
            5..=9 => {
                let out = room_for(random, &text);
                Call::Normal { text, out }
            }
            10..=14 => Call::Plan { texts: texts.clone(), plan: self.any_plan(random) },
            15..=19 => self.mark(random, &two),
            20..=24 => count(random, &two),
            25..=29 => {
                let (plan, mut marks) = (self.any_plan(random), self.marks.clone());
                marks.resize(any_length(random), 0);
                Call::MarkAll { texts: texts.clone(), plan, marks }
            }
            30..=34 => Call::Entries { texts: texts.clone(), entries: any_entries(random) },
            _ => Call::Version,
        };
        Case::new(reference, name, call)
    }

    /// Room for a plan, with the plan of the lists as they were in it.
    fn any_plan(&self, random: &mut Random) -> Vec<Cluster> {
        let mut plan = self.plan.clone();
        plan.resize(any_length(random), Cluster::default());
        plan
    }

    /// One to four changes: mostly in a text, else in the reference or the name.
    fn changed(&self, random: &mut Random) -> TwoLists {
        let (mut two, other) = (self.two.clone(), &self.other);
        for _ in 0..*random.pick(&[1, 1, 1, 1, 2, 2, 3, 4]) {
            let (list, from) = (random.below(2), random.below(4));
            match random.below(24) {
                0 => mutate(random, &mut two.reference, &other.reference),
                1 => mutate(random, &mut two.name, &other.name),
                _ => {
                    // A line of the same two lists is likelier to be accepted.
                    let part_of =
                        if from == 0 { &other.texts[0] } else { &self.two.texts[1 - list] };
                    mutate(random, &mut two.texts[list], part_of);
                }
            }
        }
        two
    }

    /// With the plan of the lists as changed, or of the lists as they were; or with another.
    fn mark(&self, random: &mut Random, two: &TwoLists) -> Call {
        let (mut plan, mut marks) = (self.plan.clone(), self.marks.clone());
        if !random.once_in(4) {
            write_plan(two, &mut plan);
        }
        let clusters = self.clusters;
        let mut cluster = random.below(clusters.max(1));
        match random.below(20) {
            0 | 1 => cluster = beyond(random, cluster, clusters),
            2 => plan.resize(any_length(random), Cluster::default()),
            3 => marks.resize(any_length(random), 0),
            4 | 5 if clusters > 0 => change_plan(random, &mut plan, clusters),
            _ => {}
        }
        Call::Mark { texts: two.texts.clone(), plan, cluster, marks }
    }
}

/// With any marks, or with those of the lists as changed and any behind them.
fn count(random: &mut Random, two: &TwoLists) -> Call {
    let mut marks = any_marks(random);
    if random.once_in(2) {
        write_marks(two, &mut marks);
    }
    Call::Count { texts: two.texts.clone(), marks }
}

/// Writes the marks of these lists; where they are refused, or the marks are too few, none.
fn write_marks(two: &TwoLists, marks: &mut [u8]) {
    let TwoLists { reference, name, texts: [first, second] } = two;
    let plan = &mut [Cluster::default(); ENTRIES_MOST];
    let _ = crate::mark_all(reference, name, first, second, plan, marks);
}

/// Writes the plan of these lists; where they are refused, none. Returns the number of clusters.
fn write_plan(two: &TwoLists, plan: &mut [Cluster]) -> usize {
    let TwoLists { reference, name, texts } = two;
    crate::plan(reference, name, &texts[0], &texts[1], plan).unwrap_or(0) as usize
}
