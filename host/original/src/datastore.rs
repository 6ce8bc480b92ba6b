//! Shim of the datastore: it collects what `Writes::apply` saves, so that a
//! plan's entries and their order are the original's.
use crate::models::miner::{MinerBlock, MinerBlockCache, MinerTree};
use std::cell::RefCell;
use std::sync::MutexGuard;

#[derive(Default)]
pub struct DatastoreManager {
    pub(crate) saved: RefCell<Vec<MinerBlock>>,
}

pub struct EpochConfig {
    pub blocks_per_epoch: u64,
}

impl DatastoreManager {
    pub fn epoch_config(&self) -> EpochConfig {
        unimplemented!()
    }
    pub fn network_u64(&self, _: &str) -> Option<u64> {
        unimplemented!()
    }
    pub fn miner_tree(&self) -> MutexGuard<'_, MinerTree> {
        unimplemented!()
    }
    pub fn with_miner_cache<R>(&self, _: impl FnOnce(&MinerBlockCache) -> R) -> anyhow::Result<R> {
        unimplemented!()
    }
}

impl MinerBlock {
    pub async fn save_to_active(&self, mgr: &DatastoreManager) -> anyhow::Result<()> {
        mgr.saved.borrow_mut().push(self.clone());
        Ok(())
    }
}
