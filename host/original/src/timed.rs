//! The original's own calls, to be timed: blocks are made its own beforehand,
//! so that nothing but its work is measured.
use crate::chain::tree_choice::{plan_adopt, plan_select, Plan};
use crate::convert::{hash, kind, plan, to_original};
use crate::models::miner::{Eligibility, MinerBlock, MinerBlockCache, MinerTree};
use history::{Block, Hash, Terms, Timed};
use std::collections::BTreeMap;
use std::sync::Arc;

pub struct Run {
    blocks: Vec<Arc<MinerBlock>>,
    cache: MinerBlockCache,
    tree: MinerTree,
}

fn empty() -> MinerBlockCache {
    MinerBlockCache::new(1, BTreeMap::new(), BTreeMap::new(), BTreeMap::new())
}

impl Run {
    pub fn new(blocks: &[Block<String>]) -> Run {
        let blocks = blocks.iter().map(to_original).map(Arc::new).collect();
        Run { blocks, cache: empty(), tree: MinerTree::default() }
    }

    fn loaded(&self, generation: u64, count: usize) -> MinerBlockCache {
        let named = |block: &Arc<MinerBlock>| (block.hash.clone(), block.clone());
        let active = self.blocks[..count].iter().map(named).collect();
        MinerBlockCache::new(generation, active, BTreeMap::new(), BTreeMap::new())
    }

    fn decided(&self, adopt: bool, terms: &Terms) -> Plan {
        shims::set_clock(terms.clock);
        let decide = if adopt { plan_adopt } else { plan_select };
        decide(&self.tree, terms.floor, terms.n)
    }
}

impl Timed for Run {
    fn forget(&mut self) {
        (self.cache, self.tree) = (empty(), MinerTree::default());
    }

    fn start(&mut self, count: usize) {
        self.cache = self.loaded(1, count);
    }

    fn reload(&mut self, count: usize) {
        self.cache = self.loaded(self.cache.generation() + 1, count);
    }

    fn put(&mut self, at: usize) {
        self.cache.put(kind(0), &self.blocks[at]);
    }

    fn remove(&mut self, at: usize) {
        self.cache.remove(kind(0), &self.blocks[at].hash);
    }

    fn sync(&mut self) {
        self.tree.sync(&self.cache, &mut |_, _| Eligibility::EligibleForNow);
    }

    fn best(&self) -> u128 {
        self.tree.best().map_or(0, |(_, linked)| linked.work)
    }

    fn best_hash(&self) -> Option<Hash> {
        self.tree.best().map(|(block, _)| hash(&block.hash))
    }

    /// In no order.
    fn leaves(&self) -> usize {
        self.tree.linked_leaves().len()
    }

    fn listed(&self) -> Vec<Hash> {
        let mut leaves: Vec<Hash> = self.tree.linked_leaves().iter().map(|block| hash(&block.hash)).collect();
        leaves.sort();
        leaves
    }

    /// Its writes are dropped, as they would be once applied.
    fn plan(&mut self, adopt: bool, terms: &Terms) -> u64 {
        match self.decided(adopt, terms) {
            Plan::Apply { changed, .. } => changed as u64,
            Plan::Scan => 0,
        }
    }

    fn planned(&mut self, adopt: bool, terms: &Terms) -> history::Plan {
        plan(self.decided(adopt, terms))
    }
}
