//! Counts how often random cases came upon a situation, so that no test silently tests nothing.

use std::collections::BTreeMap;

#[derive(Default, Debug)]
pub struct Seen(BTreeMap<&'static str, u32>);

impl Seen {
    /// A situation that is noted, but never was so, is counted too: as 0.
    pub fn note(&mut self, situation: &'static str, is_so: bool) {
        *self.0.entry(situation).or_default() += u32::from(is_so);
    }

    /// Every situation noted was so at least this often.
    pub fn assert_each(&self, least: u32) {
        assert!(self.0.values().all(|count| *count >= least), "below {least}: {self:?}");
    }
}
