//! The original's files of both its crates in one crate, so that what is
//! `pub(crate)` there can be reached, behind `history::Engine`.
//!
//! Where the sources are not at hand (see build.rs) the crate compiles empty
//! and [`start`] gives none.
#![allow(dead_code, unused_imports, unused_extern_crates)]
extern crate self as modality_datastore;
extern crate shim_macros as async_trait;
extern crate shim_macros as serde;
extern crate shims as anyhow;
extern crate shims as chrono;
extern crate shims as log;
extern crate shims as modality_common;
extern crate shims as modality_miner;
extern crate shims as serde_json;

#[cfg(at_hand)]
mod adapter;
#[cfg(at_hand)]
mod convert;
#[cfg(at_hand)]
mod datastore;
mod journal_room;
#[cfg(at_hand)]
mod timed;

#[cfg(at_hand)]
pub use datastore::DatastoreManager;
pub use journal_room::JournalRoom;

/// True when the original's sources were found and are compiled in.
pub const fn at_hand() -> bool {
    cfg!(at_hand)
}

/// The folder whose `rust/` has the files that are compiled in.
pub fn sources() -> Option<&'static str> {
    option_env!("ORIGINAL_SOURCES").filter(|_| at_hand())
}

/// A new tree over empty holdings; none where the sources are not at hand.
/// The journal room is heeded in `original-journal` only.
#[cfg(at_hand)]
pub fn start(generation: u64, journal_room: u64) -> Option<Box<dyn history::Engine>> {
    Some(Box::new(adapter::Original::new(generation, journal_room)))
}

#[cfg(not(at_hand))]
pub fn start(_: u64, _: u64) -> Option<Box<dyn history::Engine>> {
    None
}

/// The original's own calls on blocks that were made its own beforehand; none
/// where the sources are not at hand. The journal room is heeded in
/// `original-journal` only, and there by all that is put on this thread.
#[cfg(at_hand)]
pub fn timed(journal_room: u64, blocks: &[history::Block<String>]) -> Option<Box<dyn history::Timed>> {
    journal_room::set(journal_room);
    Some(Box::new(timed::Run::new(blocks)))
}

#[cfg(not(at_hand))]
pub fn timed(_: u64, _: &[history::Block<String>]) -> Option<Box<dyn history::Timed>> {
    None
}

#[cfg(at_hand)]
pub mod models {
    pub mod miner {
        include!(concat!(env!("OUT_DIR"), "/miner.rs"));
        pub use cache::{MinerBlockCache, MinerStoreKind};
        pub use miner_block::MinerBlock;
        pub use tree::{Eligibility, LinkedWork, MinerTree};
    }
    pub use miner::MinerBlock;
}

#[cfg(at_hand)]
pub mod chain {
    include!(concat!(env!("OUT_DIR"), "/chain.rs"));
}

#[cfg(at_hand)]
pub mod model {
    use std::collections::HashMap;

    /// Shim of the datastore's trait: its signatures.
    pub trait Model {
        const ID_PATH: &'static str;
        const FIELDS: &'static [&'static str];
        const FIELD_DEFAULTS: &'static [(&'static str, serde_json::Value)];
        fn set_field(&mut self, field: &str, value: serde_json::Value);
        fn get_id_keys(&self) -> HashMap<String, String>;
    }
}
