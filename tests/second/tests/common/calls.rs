//! Making the calls with lent memory that holds other values before, and looking at all of it after.

use super::lists::{text, text_of, NAME};
use super::world::World;
use second::{Cluster, Counts, Listed, Marked, Refusal};

/// What lent memory holds before a call.
pub const OLD_MARK: u8 = b'm';
pub const OLD_CLUSTER: Cluster = Cluster { first: 4_000_000, count: 77 };
pub const OLD_LISTED: Listed = Listed { list: 9, entry: 4_000_000, line: 77, cluster: 5_000_000 };

/// A reference and two list texts.
pub struct Case {
    pub reference: Vec<u8>,
    pub first: Vec<u8>,
    pub second: Vec<u8>,
}

impl Case {
    /// The records are written "POS REF ALT GT".
    pub fn new(reference: &str, first: &[&str], second: &[&str]) -> Case {
        Case { reference: reference.into(), first: text(first), second: text(second) }
    }

    /// The reference and the two lists of a world.
    pub fn of(world: &World) -> Case {
        let [first, second] = world.lists.each_ref().map(|list| text_of(list));
        Case { reference: world.reference.clone(), first, second }
    }

    /// The plan; the records behind it must keep their values.
    pub fn plan(&self) -> Result<Vec<Cluster>, Refusal> {
        let mut plan = vec![OLD_CLUSTER; 1_024];
        let count = second::plan(&self.reference, NAME, &self.first, &self.second, &mut plan);
        keep_written(plan, count.map(|count| count as usize), OLD_CLUSTER)
    }

    /// The plan, as pairs of first entry and number of entries.
    pub fn plan_pairs(&self) -> Vec<(u32, u32)> {
        let plan = self.plan().expect("the lists are accepted");
        plan.iter().map(|cluster| (cluster.first, cluster.count)).collect()
    }

    /// Asks for one cluster of `plan`.
    pub fn mark(
        &self,
        plan: &[Cluster],
        cluster: usize,
        marks: &mut [u8],
    ) -> Result<Marked, Refusal> {
        let mut lent = plan.to_vec();
        lent.resize(1_024, OLD_CLUSTER);
        second::mark(&self.reference, NAME, &self.first, &self.second, &lent, cluster, marks)
    }

    /// All marks and the summed score. The plan left must be that of `plan`, and the marks behind the
    /// last entry's must keep their values.
    pub fn marks(&self) -> Result<(String, u32), Refusal> {
        let (mut plan, mut marks) = (vec![OLD_CLUSTER; 1_024], vec![OLD_MARK; 1_024]);
        let (reference, first, second) = (&self.reference, &self.first, &self.second);
        let done = second::mark_all(reference, NAME, first, second, &mut plan, &mut marks);
        let plan = keep_written(plan, done.map(|(count, _)| count as usize), OLD_CLUSTER);
        assert_eq!(plan, self.plan());
        let entries = plan.map(|plan| plan.iter().map(|cluster| cluster.count as usize).sum());
        let marks = keep_written(marks, entries, OLD_MARK)?;
        Ok((String::from_utf8(marks).expect("marks are ASCII"), done?.1))
    }

    /// Where each entry stands; the records behind the last entry's must keep their values.
    pub fn entries(&self) -> Result<Vec<Listed>, Refusal> {
        let mut entries = vec![OLD_LISTED; 1_024];
        let count = second::entries(&self.reference, NAME, &self.first, &self.second, &mut entries);
        keep_written(entries, count.map(|count| count as usize), OLD_LISTED)
    }

    /// What these marks count.
    pub fn count(&self, marks: &[u8]) -> Result<[Counts; 2], Refusal> {
        second::count(&self.reference, NAME, &self.first, &self.second, marks)
    }

    /// What `compare` prints.
    pub fn printed(&self) -> String {
        let file = [&self.reference[..], b"\n"].concat();
        let printed = second::compare(&file, NAME, &self.first, &self.second);
        String::from_utf8(printed).expect("the table is ASCII")
    }
}

/// The normal text; the room behind it must keep its value.
pub fn normal(reference: &[u8], name: &[u8], text: &[u8]) -> Result<Vec<u8>, Refusal> {
    let mut room = vec![OLD_MARK; text.len() + 3];
    let length = second::normal(reference, name, text, &mut room);
    keep_written(room, length, OLD_MARK)
}

/// The part of lent memory that a call wrote. All behind it must be as `old`; all, if it refused.
fn keep_written<T: Copy + PartialEq>(
    lent: Vec<T>,
    written: Result<usize, Refusal>,
    old: T,
) -> Result<Vec<T>, Refusal> {
    let behind = written.unwrap_or(0);
    assert!(lent[behind..].iter().all(|value| *value == old), "more than the answer is written");
    written.map(|length| lent[..length].to_vec())
}
