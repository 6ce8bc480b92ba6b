//! Why a block is not linked (document 01, "Standing in the tree").
//!
//! Nothing of the tree is worked out here. That a block is not linked is the
//! library's answer, and so is what each condition for it stands on: the
//! effective record for the flags, the actual and what the previous hash names,
//! `parent` and `linked` for what lies below. A sum is looked at only where the
//! parent is linked: its work is answered, and the actual stands in the header.
//!
//! The library has no question for the answer that a hash holds, but `answer`
//! tells by its refusals, and two of them change nothing that counts. A 1 is
//! refused as 11 FINAL where 0 or 2 is held, and where it is taken, none given
//! counted as 1 before. A 0 is then refused exactly where 2 is held.
//!
//! With a sync that covers the present these conditions are those that the
//! block was last worked out with, but for one: an ineligible answer that came
//! later counts only when the block is worked out anew. 2 is final, so a block
//! that an answer unlinked still has it.
use crate::{Amount, Block, Hash, Reason, Refusal, Tree};

/// A condition for being linked that does not hold.
#[derive(Clone, Copy, Debug, PartialEq)]
pub enum Why {
    /// With the reason that its record carries.
    Orphaned(Option<Reason>),
    Unreadable,
    Ineligible,
    /// No store holds the block that the previous hash names.
    NotThere(Hash),
    /// The block named, and its index, which is not one less.
    OtherIndex(Hash, u64),
    NotLive(Hash),
    NotLinked(Hash),
    PastSum,
}

impl Why {
    /// In document 01's words, a hash written as `name` says.
    pub fn words(&self, name: fn(Hash) -> String) -> String {
        match self {
            Why::Orphaned(None) => "orphaned".to_string(),
            Why::Orphaned(Some(reason)) => format!("orphaned ({})", reason.kind()),
            Why::Unreadable => "actual unreadable".to_string(),
            Why::Ineligible => "answered ineligible".to_string(),
            Why::NotThere(hash) => format!("parent {} is not there", name(*hash)),
            Why::OtherIndex(hash, index) => format!("named block {} has another index, {index}", name(*hash)),
            Why::NotLive(hash) => format!("parent {} not live", name(*hash)),
            Why::NotLinked(hash) => format!("parent {} not linked", name(*hash)),
            Why::PastSum => "the sum passes 128 bits".to_string(),
        }
    }
}

/// Every condition that does not hold, in document 01's order. Of a block that
/// is not live nothing else is asked.
pub fn why(tree: &mut Tree, block: &Block<Amount>) -> Result<Vec<Why>, Refusal> {
    if block.marks.orphaned {
        return Ok(vec![Why::Orphaned(block.marks.reason)]);
    }
    let mut all = Vec::new();
    if block.actual.is_none() {
        all.push(Why::Unreadable);
    }
    if ineligible(tree, block.hash) {
        all.push(Why::Ineligible);
    }
    if block.index > 0 {
        all.extend(below(tree, block)?);
    }
    Ok(all)
}

/// Whether the answer held is 2.
pub fn ineligible(tree: &mut Tree, hash: Hash) -> bool {
    tree.answer(hash, 1) == Err(Refusal::Final) && tree.answer(hash, 0) == Err(Refusal::Final)
}

/// What is amiss with the parent, or with the sum on top of it.
fn below(tree: &Tree, block: &Block<Amount>) -> Result<Vec<Why>, Refusal> {
    let Some(parent) = tree.parent(block.hash)? else { return Ok(named(tree, block)) };
    let Some(work) = tree.linked(parent.hash)? else { return Ok(vec![Why::NotLinked(parent.hash)]) };
    let past = block.actual.is_some_and(|actual| work.value.checked_add(actual).is_none());
    Ok(if past { vec![Why::PastSum] } else { Vec::new() })
}

/// Why the block that the previous hash names is no parent.
fn named(tree: &Tree, block: &Block<Amount>) -> Vec<Why> {
    let Some(named) = tree.effective(block.prev) else { return vec![Why::NotThere(block.prev)] };
    let mut all = Vec::new();
    if block.index.checked_sub(1) != Some(named.index) {
        all.push(Why::OtherIndex(named.hash, named.index));
    }
    if named.marks.orphaned {
        all.push(Why::NotLive(named.hash));
    }
    all
}
