//! Document 01, "The two plans": what both do to blocks, and how a plan is
//! handed back.
use crate::Record;
use history::{Entry, Hash, Marks, Plan, Reason};
use std::collections::BTreeMap;

/// Told which way a plan goes, by a name of the coverage table.
pub type Told<'a> = &'a mut dyn FnMut(&'static str);

/// The blocks that a plan changed, as they stand after it. Later changes to
/// one block build on earlier ones.
#[derive(Default)]
pub struct Writes(BTreeMap<(u64, Hash), Marks>);

impl Writes {
    pub fn marks_now(&self, block: &Record) -> Marks {
        self.0.get(&(block.index, block.hash)).copied().unwrap_or(block.marks)
    }

    pub fn changed(&self, block: &Record) -> bool {
        self.0.contains_key(&(block.index, block.hash))
    }

    pub fn is_empty(&self) -> bool {
        self.0.is_empty()
    }

    /// Sets canonical, clears orphaned and reason, keeps time and competing
    /// hash.
    pub fn promote(&mut self, block: &Record) {
        let now = self.marks_now(block);
        self.set(block, Marks { canonical: true, orphaned: false, reason: None, ..now });
    }

    /// Clears both flags and sets the reason.
    pub fn demote(&mut self, block: &Record, reason: Reason) {
        let now = self.marks_now(block);
        self.set(block, Marks { canonical: false, orphaned: false, reason: Some(reason), ..now });
    }

    /// Sets all five.
    pub fn orphan(&mut self, block: &Record, reason: Reason, other: Option<Hash>, clock: i64) {
        let (time, reason) = (Some(clock), Some(reason));
        self.set(block, Marks { canonical: false, orphaned: true, time, reason, other });
    }

    fn set(&mut self, block: &Record, marks: Marks) {
        self.0.insert((block.index, block.hash), marks);
    }

    /// The plan, its entries by index and then hash.
    pub fn plan(self, changed: u64) -> Plan {
        let entries = self.0.into_iter().map(|((_, hash), marks)| Entry { hash, marks }).collect();
        Plan::Apply { changed, entries }
    }
}

/// True when a walk holds the block.
pub fn holds(walk: &[&Record], block: &Record) -> bool {
    walk.iter().any(|on| on.hash == block.hash)
}
