//! The original behind `history::Engine`. Loads are collected and handed to
//! `MinerBlockCache::new` when the cache is first needed; reload makes a new
//! cache and keeps the tree.
use crate::chain::fork_choice::choose_verified;
use crate::chain::tree_choice::{plan_adopt, plan_select};
use crate::convert::{chain_work, choice, hash, kind, plan, reason, to_original, to_plain, work};
use crate::journal_room;
use crate::models::miner::{Eligibility, MinerBlock, MinerBlockCache, MinerTree};
use history::{Amount, Ask, Block, Choice, Engine, Hash, Plan, Reason, Side, Terms, Work};
use std::cell::OnceCell;
use std::collections::BTreeMap;
use std::sync::Arc;

type Store = BTreeMap<String, Arc<MinerBlock>>;

pub struct Original {
    generation: u64,
    journal_room: u64,
    loads: [Store; 3],
    /// Built of the loads when first needed; a load drops one that only a
    /// question built.
    cache: OnceCell<MinerBlockCache>,
    tree: MinerTree,
}

impl Original {
    pub fn new(generation: u64, journal_room: u64) -> Original {
        let (loads, cache, tree) = Default::default();
        Original { generation, journal_room, loads, cache, tree }
    }

    fn cache(&self) -> &MinerBlockCache {
        self.cache.get_or_init(|| {
            let [active, forks, canon] = self.loads.clone();
            MinerBlockCache::new(self.generation, active, forks, canon)
        })
    }

    fn cache_mut(&mut self) -> &mut MinerBlockCache {
        journal_room::set(self.journal_room);
        self.cache();
        self.cache.get_mut().expect("built above")
    }
}

impl Engine for Original {
    fn reload(&mut self, generation: u64) {
        self.generation = generation;
        (self.loads, self.cache) = Default::default();
    }
    fn load(&mut self, store: u8, block: &Block<String>) {
        self.cache = OnceCell::new();
        self.loads[store as usize].insert(block.hash.hex(), Arc::new(to_original(block)));
    }
    fn put(&mut self, store: u8, block: &Block<String>) {
        self.cache_mut().put(kind(store), &to_original(block));
    }
    fn remove(&mut self, store: u8, hash: Hash) {
        self.cache_mut().remove(kind(store), &hash.hex());
    }
    fn sync(&mut self, answer: &dyn Fn(Hash) -> u8) {
        self.cache();
        let cache = self.cache.get().expect("built above");
        self.tree.sync(cache, &mut |block, _| match answer(hash(&block.hash)) {
            0 => Eligibility::Eligible,
            1 => Eligibility::EligibleForNow,
            _ => Eligibility::Ineligible,
        });
    }
}

impl Ask for Original {
    fn effective(&self, hash: Hash) -> Option<Block<Amount>> {
        self.cache().effective(&hash.hex()).map(|block| to_plain(block))
    }
    fn count(&self) -> u64 {
        self.cache().len_effective() as u64
    }
    fn generation(&self) -> u64 {
        self.cache().generation()
    }
    fn version(&self) -> u64 {
        self.cache().version()
    }
    fn changes(&self, generation: u64, version: u64) -> Option<Vec<Hash>> {
        let changes = self.cache().changes_since(generation, version)?;
        Some(changes.iter().map(|hex| hash(hex)).collect())
    }

    fn node(&self, hash: Hash) -> Option<Block<Amount>> {
        self.tree.node(&hash.hex()).map(|block| to_plain(block))
    }
    fn parent(&self, hash: Hash) -> Option<Block<Amount>> {
        self.tree.parent(&hash.hex()).map(|block| to_plain(block))
    }
    fn linked(&self, hash: Hash) -> Option<Work> {
        self.tree.linked(&hash.hex()).map(work)
    }
    fn canonical_linked(&self, hash: Hash) -> Option<Work> {
        self.tree.canonical_linked(&hash.hex()).map(work)
    }
    fn best(&self) -> Option<(Hash, Work)> {
        self.tree.best().map(|(block, linked)| (hash(&block.hash), work(linked)))
    }
    fn canonical_best(&self) -> Option<(Hash, Work)> {
        self.tree.canonical_best().map(|(block, linked)| (hash(&block.hash), work(linked)))
    }
    fn canonical_count(&self) -> u64 {
        self.tree.canonical_count() as u64
    }
    fn live_count(&self) -> u64 {
        self.tree.live_count() as u64
    }
    fn leaves(&self) -> Vec<Hash> {
        // The original gives them in no order; document 01 adds one.
        let mut leaves: Vec<Hash> = self.tree.linked_leaves().iter().map(|block| hash(&block.hash)).collect();
        leaves.sort();
        leaves
    }

    fn select(&self, terms: &Terms) -> Plan {
        shims::set_clock(terms.clock);
        plan(plan_select(&self.tree, terms.floor, terms.n))
    }
    fn adopt(&self, terms: &Terms) -> Plan {
        shims::set_clock(terms.clock);
        plan(plan_adopt(&self.tree, terms.floor, terms.n))
    }
    fn choose(&self, local: &Side<String>, remote: &Side<String>) -> (Choice, Reason) {
        let chosen = choose_verified(
            chain_work(local.work.as_ref()),
            local.index,
            &local.hash.hex(),
            chain_work(remote.work.as_ref()),
            remote.index,
            &remote.hash.hex(),
        );
        (choice(chosen.result), reason(&chosen.reason))
    }
    fn amount(&self, text: &str) -> Amount {
        text.parse().ok()
    }
}
