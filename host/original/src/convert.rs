//! The original's types to plain ones and back.
use crate::chain::fork_choice::{ChainWork, ForkChoiceResult};
use crate::chain::tree_choice::Plan;
use crate::models::miner::{LinkedWork, MinerBlock, MinerStoreKind};
use crate::DatastoreManager;
use history::{Amount, Block, Choice, Entry, Hash, Marks, Reason, Work};
use std::future::Future;
use std::task::{Context, Poll, Waker};

pub fn to_original(block: &Block<String>) -> MinerBlock {
    MinerBlock {
        hash: block.hash.hex(),
        index: block.index,
        epoch: block.epoch,
        timestamp: 0,
        previous_hash: block.prev.hex(),
        data_hash: String::new(),
        nonce: String::new(),
        target_difficulty: block.target.clone(),
        actualized_difficulty: block.actual.clone(),
        nominated_peer_id: String::new(),
        miner_number: 0,
        is_orphaned: block.marks.orphaned,
        is_canonical: block.marks.canonical,
        seen_at: None,
        orphaned_at: block.marks.time,
        orphan_reason: block.marks.reason.map(|reason| reason.sentence()),
        height_at_time: None,
        competing_hash: block.marks.other.map(|hash| hash.hex()),
    }
}

pub fn hash(hex: &str) -> Hash {
    Hash::read(hex).expect("the original gives back the hashes it was given")
}

pub fn reason(sentence: &str) -> Reason {
    Reason::from_sentence(sentence).unwrap_or_else(|| panic!("no reason of document 01: {sentence}"))
}

fn marks(block: &MinerBlock) -> Marks {
    Marks {
        orphaned: block.is_orphaned,
        canonical: block.is_canonical,
        time: block.orphaned_at,
        reason: block.orphan_reason.as_deref().map(reason),
        other: block.competing_hash.as_deref().map(hash),
    }
}

/// The amounts are read as the original reads them, with `str::parse`.
pub fn to_plain(block: &MinerBlock) -> Block<Amount> {
    Block {
        hash: hash(&block.hash),
        index: block.index,
        epoch: block.epoch,
        prev: hash(&block.previous_hash),
        target: block.target_difficulty.parse().ok(),
        actual: block.actualized_difficulty.parse().ok(),
        marks: marks(block),
    }
}

pub fn kind(store: u8) -> MinerStoreKind {
    [MinerStoreKind::Active, MinerStoreKind::Forks, MinerStoreKind::Canon][store as usize]
}

pub fn work(linked: LinkedWork) -> Work {
    Work { value: linked.work, ok: linked.proofs_ok }
}

pub fn chain_work(text: Option<&String>) -> ChainWork {
    text.and_then(|text| text.parse().ok()).map_or(ChainWork::Unknown, ChainWork::Linked)
}

pub fn choice(result: ForkChoiceResult) -> Choice {
    match result {
        ForkChoiceResult::KeepLocal => Choice::Local,
        ForkChoiceResult::AdoptRemote => Choice::Remote,
        ForkChoiceResult::Equal => Choice::Equal,
    }
}

/// Applies a plan's writes and lists what was saved.
pub fn plan(plan: Plan) -> history::Plan {
    let Plan::Apply { writes, changed } = plan else {
        return history::Plan::Scan;
    };
    let mgr = DatastoreManager::default();
    let done = std::pin::pin!(writes.apply(&mgr)).poll(&mut Context::from_waker(Waker::noop()));
    assert!(matches!(done, Poll::Ready(Ok(()))), "the shim's saves never wait nor fail");
    let entry = |block: &MinerBlock| Entry { hash: hash(&block.hash), marks: marks(block) };
    history::Plan::Apply { changed: changed as u64, entries: mgr.saved.take().iter().map(entry).collect() }
}
