//! What a side of the bench does: calls on blocks that it was given beforehand,
//! each named by its place among them.
use crate::{Hash, Plan, Terms};

pub trait Timed {
    /// What was held is let go, so that this is not measured with what follows.
    fn forget(&mut self);
    /// The first so many blocks are loaded; nothing is synced.
    fn start(&mut self, count: usize);
    /// The same anew, under a later generation, so that the next sync builds the
    /// tree again, in the tables that are there.
    fn reload(&mut self, count: usize);
    fn put(&mut self, at: usize);
    fn remove(&mut self, at: usize);
    fn sync(&mut self);
    /// The work of the best block.
    fn best(&self) -> u128;
    fn best_hash(&self) -> Option<Hash>;
    /// The list of leaves, made and dropped; gives how many.
    fn leaves(&self) -> usize;
    /// The same by rising hash, which is not timed.
    fn listed(&self) -> Vec<Hash>;
    /// A plan, select or adopt; gives its `changed` alone, 0 for a scan.
    fn plan(&mut self, adopt: bool, terms: &Terms) -> u64;
    /// The same plan whole, which is not timed.
    fn planned(&mut self, adopt: bool, terms: &Terms) -> Plan;
}
