//! Document 01, "Domain of the comparison": a history is watched while it is
//! read, so that it is known when it leaves the domain, and whether every
//! ineligible answer came in time.
use history::{Answer, Call, Hash};
use reading::{Holding, Reading, Replay};
use std::collections::{BTreeMap, BTreeSet};

/// What the domain asks of a history.
#[derive(Default)]
pub struct Domain {
    /// Final answers since the start.
    finals: BTreeMap<Hash, u8>,
    /// Hashes whose room a sync has seen.
    synced: BTreeSet<Hash>,
    /// Those of them that turned ineligible later.
    late: BTreeSet<Hash>,
    /// The hash whose final answer was not given again before a sync.
    pub left: Option<Hash>,
}

impl Domain {
    /// A hash that regained room and whose final answer is to be given again
    /// before the next sync.
    pub fn lost(&self, holding: &Holding) -> Option<(Hash, u8)> {
        let given = |hash: &Hash, value: u8| holding.rooms.get(hash).is_none_or(|room| room.answer == Some(value));
        self.finals.iter().map(|(hash, value)| (*hash, *value)).find(|(hash, value)| !given(hash, *value))
    }

    pub fn final_answer(&self, hash: Hash) -> Option<u8> {
        self.finals.get(&hash).copied()
    }

    pub fn seen_by_sync(&self, hash: Hash) -> bool {
        self.synced.contains(&hash)
    }

    /// No hash that has room turned ineligible after a sync had seen it: then
    /// the tree is what it would be from scratch.
    pub fn in_time(&self) -> bool {
        self.late.is_empty()
    }

    fn answered(&mut self, hash: Hash, was: u8, value: u8) {
        if value == 2 && was != 2 && self.seen_by_sync(hash) {
            self.late.insert(hash);
        }
        if value != 1 {
            self.finals.entry(hash).or_insert(value);
        }
    }

    fn synced(&mut self, holding: &Holding) {
        self.synced = holding.rooms.keys().copied().collect();
        self.late.retain(|hash| holding.rooms.contains_key(hash));
    }
}

/// The reading of a history, with its domain watched.
#[derive(Default)]
pub struct Watched {
    pub replay: Replay,
    pub domain: Domain,
}

impl Watched {
    /// The holdings and tree, once a start was accepted.
    pub fn reading(&self) -> Option<&Reading> {
        self.replay.0.as_ref()
    }

    /// The reading's answer.
    pub fn call(&mut self, call: &Call) -> Answer {
        let was = match (call, self.reading()) {
            (Call::Answer(hash, _), Some(reading)) => reading.holding.answer_of(*hash),
            _ => 1,
        };
        if let (Call::Sync, Some(reading), None) = (call, self.reading(), self.domain.left) {
            self.domain.left = self.domain.lost(&reading.holding).map(|(hash, _)| hash);
        }
        let answer = self.replay.call(call);
        if answer == Answer::Done {
            self.watch(call, was);
        }
        answer
    }

    fn watch(&mut self, call: &Call, was: u8) {
        let Some(reading) = &self.replay.0 else {
            return;
        };
        match call {
            Call::Start { .. } => self.domain = Domain { left: self.domain.left, ..Domain::default() },
            Call::Reload { .. } => (self.domain.synced, self.domain.late) = Default::default(),
            Call::Answer(hash, value) => self.domain.answered(*hash, was, *value as u8),
            Call::Sync => self.domain.synced(&reading.holding),
            _ => (),
        }
    }
}
