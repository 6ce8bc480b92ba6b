//! Scripts: what both sides do in a round, call by call, fixed beforehand, so
//! that neither is charged for what a host does between calls. The entries of
//! plans are learned once, and put back as blocks that are ready on both sides.
use cadraspes::{Block, Hash, Plan, Terms, Tree};
use std::collections::BTreeMap;

/// The original's own journal room.
pub const JOURNAL: u64 = 200_000;

/// A call; blocks are told by their number in the script's list.
#[derive(Clone, Copy)]
pub enum Step {
    /// From nothing, the first so many blocks are loaded.
    Start(usize),
    /// The same under a later generation.
    Reload(usize),
    Put(usize),
    Remove(usize),
    Sync,
    Best,
    Leaves,
    Select,
    Adopt,
}

pub struct Script {
    /// Some of them may be one block with several marks.
    pub blocks: Vec<Block<String>>,
    /// What makes a round ready, and what is timed.
    pub before: Vec<Step>,
    pub timed: Vec<Step>,
    /// The time is told for one of so many.
    pub per: usize,
    pub terms: Terms,
    pub journal: u64,
}

/// Epochs so long that no fork is stale.
pub const TERMS: Terms = Terms { floor: None, n: 1_000_000, clock: 7 };

/// The same, and a floor 200 below the highest block: without one, adopt goes
/// down our whole walk for each of thousands of old forks, and the plans that
/// are compared after a round take far longer than what is timed.
pub fn floored(blocks: &[Block<String>]) -> Terms {
    let highest = blocks.iter().map(|block| block.index).max();
    Terms { floor: highest.map(|index| index.saturating_sub(200)), ..TERMS }
}

impl Script {
    pub fn new(blocks: Vec<Block<String>>, before: Vec<Step>, timed: Vec<Step>, per: usize) -> Script {
        let terms = floored(&blocks);
        Script { blocks, before, timed, per, terms, journal: JOURNAL }
    }

    /// How many hashes there are in all.
    pub fn hashes(&self) -> usize {
        by_hash(&self.blocks).len()
    }
}

/// The first block of each hash.
fn by_hash(blocks: &[Block<String>]) -> BTreeMap<Hash, usize> {
    blocks.iter().enumerate().rev().map(|(at, block)| (block.hash, at)).collect()
}

/// Writes a script by doing it on a tree.
pub struct Scribe {
    pub blocks: Vec<Block<String>>,
    pub steps: Vec<Step>,
    by_hash: BTreeMap<Hash, usize>,
    tree: Tree,
    terms: Terms,
}

impl Scribe {
    /// After a load of the first so many blocks and a sync.
    pub fn new(blocks: Vec<Block<String>>, held: usize, terms: Terms) -> Scribe {
        let by_hash = by_hash(&blocks);
        let mut tree = Tree::new(by_hash.len() as u64, JOURNAL, 1, 0).expect("room");
        blocks[..held].iter().for_each(|block| tree.load(0, block).expect("loads"));
        tree.sync();
        Scribe { blocks, steps: Vec::new(), by_hash, tree, terms }
    }

    pub fn put(&mut self, at: usize) {
        self.tree.put(0, &self.blocks[at]).expect("put");
        self.steps.push(Step::Put(at));
    }

    pub fn sync(&mut self) {
        self.tree.sync();
        self.steps.push(Step::Sync);
    }

    /// A plan, whose entries are put back. Gives how many.
    pub fn plan(&mut self, adopt: bool) -> usize {
        let plan = if adopt { self.tree.adopt(&self.terms) } else { self.tree.select(&self.terms) };
        self.steps.push(if adopt { Step::Adopt } else { Step::Select });
        let Ok(Plan::Apply { entries, .. }) = plan else { panic!("the tree can tell") };
        for entry in &entries {
            let block = self.blocks[self.by_hash[&entry.hash]].clone();
            self.blocks.push(Block { marks: entry.marks, ..block });
            self.put(self.blocks.len() - 1);
        }
        entries.len()
    }

    /// Both plans as a node asks them after each block, each on a tree that
    /// was synced.
    pub fn both_plans(&mut self) -> usize {
        self.sync();
        let selected = self.plan(false);
        self.sync();
        selected + self.plan(true)
    }

    pub fn script(self, before: Vec<Step>, per: usize) -> Script {
        let Scribe { blocks, steps, terms, .. } = self;
        Script { blocks, before, timed: steps, per, terms, journal: JOURNAL }
    }
}

/// The first so many blocks with the marks they have once both plans find
/// nothing more to change.
pub fn settled(mut blocks: Vec<Block<String>>, held: usize, terms: Terms) -> Vec<Block<String>> {
    let (all, mut scribe) = (blocks.len(), Scribe::new(blocks.clone(), held, terms));
    while scribe.both_plans() > 0 {}
    for block in &scribe.blocks[all..] {
        blocks[scribe.by_hash[&block.hash]].marks = block.marks;
    }
    blocks
}
