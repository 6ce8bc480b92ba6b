//! What is drawn: the blocks that are held, and what the library answers about
//! each of them and about the tree.
use super::why::{ineligible, why, Why};
use crate::{Amount, Block, Hash, Refusal, Tree, Work};
use std::cmp::Reverse;
use std::collections::BTreeSet;

/// A best block with its work.
pub type Tip = Option<(Hash, Work)>;

/// A tree as it stands.
#[derive(Debug, Default, PartialEq)]
pub struct Scene {
    /// How many hashes have an effective record; none before a start.
    pub held: Option<u64>,
    /// The answers about the whole tree; none where no sync covers the present.
    pub whole: Option<Whole>,
    /// By falling index, then rising hash.
    pub blocks: Vec<Shown>,
}

/// What the tree answers as a whole.
#[derive(Debug, PartialEq)]
pub struct Whole {
    pub best: Tip,
    pub canonical_best: Tip,
    pub live: u64,
    pub canonical: u64,
    pub leaves: BTreeSet<Hash>,
}

/// A block that is held.
#[derive(Debug, PartialEq)]
pub struct Shown {
    /// Its effective record.
    pub block: Block<Amount>,
    pub edge: Edge,
    /// None where it is not worked out yet.
    pub standing: Option<Standing>,
}

/// The line that leads down from a block.
#[derive(Clone, Copy, Debug, PartialEq)]
pub enum Edge {
    None,
    /// To the parent, by the library's answer.
    Parent(Hash),
    /// To a block that is held, named by the previous hash, and one lower in
    /// index, but not answered as parent.
    Named(Hash),
}

/// Where a block stands in the tree.
#[derive(Debug, PartialEq)]
pub struct Standing {
    pub linked: Option<Work>,
    pub canonical_linked: Option<Work>,
    pub leaf: bool,
    /// Empty for a linked block.
    pub why: Vec<Why>,
    /// Linked, though an ineligible answer is held: it came later.
    pub unseen: bool,
}

impl Scene {
    /// The tree with those of the hashes that have an effective record.
    pub fn of(tree: &mut Tree, hashes: &BTreeSet<Hash>) -> Scene {
        let mut held: Vec<Block<Amount>> = hashes.iter().filter_map(|hash| tree.effective(*hash)).collect();
        held.sort_by_key(|block| (Reverse(block.index), block.hash));
        let whole = whole(tree).ok();
        let mut shown = |block| {
            let standing = whole.as_ref().and_then(|whole| standing(tree, &block, whole).ok());
            Shown { block, edge: edge(tree, &block), standing }
        };
        let blocks = held.into_iter().map(&mut shown).collect();
        Scene { held: Some(tree.count()), whole, blocks }
    }

    pub fn is_best(&self, shown: &Shown) -> bool {
        self.whole.as_ref().is_some_and(|whole| tip_is(&whole.best, shown))
    }

    pub fn is_canonical_best(&self, shown: &Shown) -> bool {
        self.whole.as_ref().is_some_and(|whole| tip_is(&whole.canonical_best, shown))
    }

    /// What is said above a drawing.
    pub fn heading(&self) -> Vec<String> {
        let Some(held) = self.held else {
            return vec!["no start was accepted: there is no tree yet".to_string()];
        };
        let Some(Whole { best, canonical_best, live, canonical, leaves }) = &self.whole else {
            let stale = "not worked out yet: no sync covers the present (12 STALE)".to_string();
            return vec![stale, format!("{held} held; lines go to what the previous hashes name")];
        };
        let counts = format!("{held} held, {live} live, {canonical} canonical, leaves: {}", leaves.len());
        vec![counts, format!("best: {}", tip(best)), format!("canonical best: {}", tip(canonical_best))]
    }
}

impl Shown {
    pub fn linked(&self) -> Option<Work> {
        self.standing.as_ref()?.linked
    }

    pub fn canonical_linked(&self) -> Option<Work> {
        self.standing.as_ref()?.canonical_linked
    }

    /// What is to be said about a block beside its values.
    pub fn remarks(&self, name: fn(Hash) -> String) -> Vec<String> {
        let Some(standing) = &self.standing else { return Vec::new() };
        let mut all: Vec<String> = standing.why.iter().map(|why| why.words(name)).collect();
        if standing.linked.is_none() && all.is_empty() {
            all.push("no condition of document 01 is missing".to_string());
        }
        if standing.unseen {
            all.push("answered ineligible, not seen yet".to_string());
        }
        all
    }
}

fn tip_is(tip: &Tip, shown: &Shown) -> bool {
    tip.is_some_and(|(hash, _)| hash == shown.block.hash)
}

fn tip(tip: &Tip) -> String {
    let told = |(hash, work): (Hash, Work)| {
        format!("{hash}, work {:#x}, proofs {}", work.value, if work.ok { "ok" } else { "no" })
    };
    tip.map_or("none".to_string(), told)
}

fn whole(tree: &mut Tree) -> Result<Whole, Refusal> {
    let hash = |(block, work): (Block<Amount>, Work)| (block.hash, work);
    Ok(Whole {
        best: tree.best()?.map(hash),
        canonical_best: tree.canonical_best()?.map(hash),
        live: tree.live_count()?,
        canonical: tree.canonical_count()?,
        leaves: tree.leaves()?.into_iter().collect(),
    })
}

fn standing(tree: &mut Tree, block: &Block<Amount>, whole: &Whole) -> Result<Standing, Refusal> {
    let linked = tree.linked(block.hash)?;
    Ok(Standing {
        linked,
        canonical_linked: tree.canonical_linked(block.hash)?,
        leaf: whole.leaves.contains(&block.hash),
        why: if linked.is_some() { Vec::new() } else { why(tree, block)? },
        unseen: linked.is_some() && ineligible(tree, block.hash),
    })
}

fn edge(tree: &Tree, block: &Block<Amount>) -> Edge {
    if let Ok(Some(parent)) = tree.parent(block.hash) {
        return Edge::Parent(parent.hash);
    }
    match (block.index.checked_sub(1), tree.effective(block.prev)) {
        (Some(below), Some(named)) if named.index == below => Edge::Named(named.hash),
        _ => Edge::None,
    }
}
