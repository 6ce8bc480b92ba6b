//! Where each block is drawn: levels by falling index, and lanes across them.
//! A line leads from a block to one of the next level, so that it keeps its
//! block's lane until it reaches that block.
use super::scene::{Edge, Scene, Shown};
use crate::Hash;
use std::collections::BTreeMap;

/// A block with its place.
pub struct Placed<'a> {
    pub shown: &'a Shown,
    /// 0 for the highest index that is held.
    pub level: usize,
    pub lane: usize,
}

/// What a lane is kept for.
#[derive(Clone, Copy, PartialEq)]
enum Lane {
    Free,
    /// A line ended here on the level above: a block right below would look as
    /// if it were its parent.
    Rests,
    /// A line leads to this block, or it is a tip that is still to come.
    Waits(Hash),
}

impl Edge {
    /// The block that it leads to.
    pub fn to(self) -> Option<Hash> {
        match self {
            Edge::None => None,
            Edge::Parent(hash) | Edge::Named(hash) => Some(hash),
        }
    }
}

/// All blocks from the highest index to the lowest. The canonical line takes
/// the first lane and the best block's line the next; a block is in the lowest
/// lane of those that lead to it, and no two of one level share a lane.
pub fn placed(scene: &Scene) -> Vec<Placed<'_>> {
    let tips = scene.whole.iter().flat_map(|whole| [whole.canonical_best, whole.best]);
    let mut lanes: Vec<Lane> = tips.flatten().map(|(hash, _)| Lane::Waits(hash)).collect();
    lanes.dedup();
    let levels = scene.blocks.chunk_by(|one, other| one.block.index == other.block.index);
    levels.enumerate().flat_map(|(level, blocks)| place(&mut lanes, level, blocks)).collect()
}

/// Places one level: what is waited for, by lane, then the others by hash.
fn place<'a>(lanes: &mut Vec<Lane>, level: usize, blocks: &'a [Shown]) -> Vec<Placed<'a>> {
    let waiting = waiting(lanes);
    let lane = |shown: &Shown| waiting.get(&shown.block.hash).copied();
    let at = |shown, lane| Placed { shown, level, lane };
    let mut all: Vec<Placed> = blocks.iter().filter_map(|shown| Some(at(shown, lane(shown)?))).collect();
    all.sort_by_key(|placed| placed.lane);
    let mut free = 0;
    for shown in blocks.iter().filter(|shown| lane(shown).is_none()) {
        while lanes.get(free).is_some_and(|lane| *lane != Lane::Free) {
            free += 1;
        }
        all.push(at(shown, free));
        free += 1;
    }
    follow(lanes, &all);
    all
}

/// The lowest lane that waits for a block.
fn waiting(lanes: &[Lane]) -> BTreeMap<Hash, usize> {
    let waits = |(at, lane): (usize, &Lane)| match lane {
        Lane::Waits(hash) => Some((*hash, at)),
        _ => None,
    };
    // Of several the last one stays.
    lanes.iter().enumerate().rev().filter_map(waits).collect()
}

/// Lanes that led to blocks of this level end; those of its blocks wait for
/// what they lead to.
fn follow(lanes: &mut Vec<Lane>, level: &[Placed]) {
    let here: BTreeMap<Hash, usize> = level.iter().map(|placed| (placed.shown.block.hash, placed.lane)).collect();
    for lane in lanes.iter_mut() {
        match lane {
            Lane::Waits(hash) if !here.contains_key(hash) => (),
            _ => *lane = Lane::Free,
        }
    }
    let width = level.iter().map(|placed| placed.lane + 1).max().unwrap_or(0);
    lanes.resize(width.max(lanes.len()), Lane::Free);
    for placed in level {
        if let Some(lane) = lanes.get_mut(placed.lane) {
            *lane = placed.shown.edge.to().map_or(Lane::Rests, Lane::Waits);
        }
    }
}
