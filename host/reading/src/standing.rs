//! Document 01, "Standing in the tree": the values of the live blocks, worked
//! out from scratch or by an incremental sync.
use crate::{meets_target, Record};
use history::{Hash, Work};
use std::cmp::Reverse;
use std::collections::{BTreeMap, BTreeSet};

/// The values of the blocks that have one.
type Values = BTreeMap<Hash, Work>;

/// The live blocks with the two values of each that has them.
#[derive(Clone, Debug, Default, PartialEq)]
pub struct View {
    pub live: BTreeMap<Hash, Record>,
    pub linked: Values,
    pub canonical_linked: Values,
}

impl View {
    /// Everything from the live blocks and the answers alone, by rising index.
    pub fn from_scratch(live: BTreeMap<Hash, Record>, ineligible: &dyn Fn(Hash) -> bool) -> View {
        let mut order: Vec<(u64, Hash)> = live.values().map(|block| (block.index, block.hash)).collect();
        order.sort();
        let mut view = View { live, ..View::default() };
        for (_, hash) in order {
            let (linked, canonical_linked) = view.work_out(hash, ineligible);
            store(&mut view.linked, hash, linked);
            store(&mut view.canonical_linked, hash, canonical_linked);
        }
        view
    }

    /// An incremental sync: works out anew the changed hashes and every live
    /// block that names a block whose value changed on being worked out.
    pub fn work_out_anew(&mut self, live: BTreeMap<Hash, Record>, changed: &[Hash], ineligible: &dyn Fn(Hash) -> bool) {
        self.live = live;
        let mut pending: BTreeSet<(u64, Hash)> = changed.iter().map(|hash| self.turn(*hash)).collect();
        while let Some((_, hash)) = pending.pop_first() {
            let (linked, canonical_linked) = self.work_out(hash, ineligible);
            let one = store(&mut self.linked, hash, linked);
            let other = store(&mut self.canonical_linked, hash, canonical_linked);
            if one || other {
                let naming = self.live.values().filter(|block| block.prev == hash);
                pending.extend(naming.map(|block| (block.index, block.hash)));
            }
        }
    }

    /// Pending ones go by lowest index, then hash, a hash no longer live
    /// counting as index 0.
    fn turn(&self, hash: Hash) -> (u64, Hash) {
        (self.live.get(&hash).map_or(0, |block| block.index), hash)
    }

    /// The live block named by the previous hash whose index is one less.
    /// Index 0 has none.
    pub fn parent(&self, block: &Record) -> Option<&Record> {
        let below = block.index.checked_sub(1)?;
        self.live.get(&block.prev).filter(|parent| parent.index == below)
    }

    /// Linked and canonical linked of one hash, from the values that stand.
    fn work_out(&self, hash: Hash, ineligible: &dyn Fn(Hash) -> bool) -> (Option<Work>, Option<Work>) {
        let Some(block) = self.live.get(&hash) else {
            return (None, None);
        };
        let linked = if ineligible(hash) { None } else { self.extend(block, &self.linked) };
        let canonical = if block.marks.canonical { self.extend(block, &self.canonical_linked) } else { None };
        (linked, canonical)
    }

    /// A block's value from its parent's. A sum over 128 bits gives none.
    fn extend(&self, block: &Record, values: &Values) -> Option<Work> {
        let actual = block.actual?;
        if block.index == 0 {
            return Some(Work { value: actual, ok: true });
        }
        let below = values.get(&self.parent(block)?.hash)?;
        Some(Work { value: below.value.checked_add(actual)?, ok: below.ok && meets_target(block) })
    }

    /// Greatest work, then greater index, then lower hash.
    fn top(&self, values: &Values) -> Option<(Hash, Work)> {
        let rank = |(hash, work): &(&Hash, &Work)| (work.value, self.live[*hash].index, Reverse(**hash));
        values.iter().max_by_key(rank).map(|(hash, work)| (*hash, *work))
    }

    pub fn best(&self) -> Option<(Hash, Work)> {
        self.top(&self.linked)
    }

    pub fn canonical_best(&self) -> Option<(Hash, Work)> {
        self.top(&self.canonical_linked)
    }

    /// The linked blocks that no linked block has as parent, by rising hash.
    pub fn leaves(&self) -> Vec<Hash> {
        let linked = || self.linked.keys();
        let parents: BTreeSet<Hash> =
            linked().filter_map(|hash| self.parent(&self.live[hash])).map(|parent| parent.hash).collect();
        linked().filter(|hash| !parents.contains(*hash)).copied().collect()
    }

    pub fn canonical_count(&self) -> u64 {
        self.live.values().filter(|block| block.marks.canonical).count() as u64
    }

    /// A live block and its ancestors, highest first.
    pub fn walk(&self, hash: Hash) -> Vec<&Record> {
        let mut walk = vec![&self.live[&hash]];
        while let Some(parent) = self.parent(walk[walk.len() - 1]) {
            walk.push(parent);
        }
        walk
    }
}

/// Stores a value; true if it is another than before.
fn store(values: &mut Values, hash: Hash, new: Option<Work>) -> bool {
    let old = match new {
        Some(work) => values.insert(hash, work),
        None => values.remove(&hash),
    };
    old != new
}
