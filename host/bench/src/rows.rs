//! The rows of the comparison: for each how its script is written, by how many
//! blocks are held.
use crate::blocks::{blocks, leafy, rivals, Shape, FORKED};
use crate::script::{floored, settled, Scribe, Script, Step, TERMS};
use cadraspes::{Block, Terms};

/// Blocks held, so far as the greatest room has places for those that are put.
const HELD: [usize; 3] = [1_024, 8_192, 32_768];
const GREATEST: usize = 32_768;
/// Blocks put in a round, and blocks that wait for one parent.
const GROWTH: usize = 256;
const WAITING: usize = 1_000;
const LEAVES: usize = 10_000;
/// Journal room of the row whose journal runs over.
const SHORT: usize = 64;
/// Blocks in an epoch where a node's steady state is meant: forks are orphaned
/// as stale two epochs below the tip.
const EPOCH: u64 = 40;

pub struct Row {
    /// The word by which it is asked for alone.
    pub key: &'static str,
    pub what: &'static str,
    /// How many times as fast as the original it is meant to be.
    pub goal: f64,
    pub held: Vec<usize>,
    pub script: fn(usize) -> Script,
}

pub fn rows() -> Vec<Row> {
    let row = |key, what, goal, put: usize, script| {
        let held = HELD.map(|held| held.min(GREATEST - put)).to_vec();
        Row { key, what, goal, held, script }
    };
    let among_leaves = |key, what, script| Row { key, what, goal: 5.0, held: vec![64 + LEAVES], script };
    vec![
        row("new", "put, new block", 10.0, GROWTH, puts),
        row("again", "put again", 10.0, 0, again),
        row("eight", "put again, eight blocks", 10.0, 0, eight),
        row("grow", "put one block, sync, best", 10.0, GROWTH, grow),
        row("steady", "steady state: put, sync, select, adopt, entries put back", 10.0, GROWTH, steady),
        row("load", "first load, a block", 5.0, 0, load),
        row("rebuild", "rebuild, a block", 10.0, 0, rebuild),
        row("first", "first load and rebuild, a block", 5.0, 0, first),
        row("wait", "the parent of 1,000 that wait: put, sync, best", 5.0, WAITING + 4, wait),
        row("reorganise", "reorganisation 100 deep: put, sync, select, 201 entries put back, sync", 5.0, 0, reorganise),
        row("tip", "removal and return of the tip, a sync after each", 5.0, 0, tip),
        row("middle", "removal and return of a block in the middle, a sync after each", 5.0, 0, middle),
        row("overrun", "a journal of 64 that runs over at every look: 65 puts, sync, best", 5.0, 0, overrun),
        among_leaves("leaf", "10,000 leaves: put one more, sync, best", leaf),
        among_leaves("listing", "10,000 leaves: listed", |_| asked(leafy(LEAVES), Step::Leaves)),
        among_leaves("leafy-select", "10,000 leaves: select", |_| asked(leafy(LEAVES), Step::Select)),
        among_leaves("leafy-adopt", "10,000 leaves: adopt", |_| asked(leafy(LEAVES), Step::Adopt)),
    ]
}

fn each(blocks: impl Iterator<Item = usize>, steps: &[Step]) -> Vec<Step> {
    blocks.flat_map(|at| [&[Step::Put(at)], steps].concat()).collect()
}

fn held_and_synced(held: usize) -> Vec<Step> {
    vec![Step::Start(held), Step::Sync]
}

fn puts(held: usize) -> Script {
    let timed = each(held..held + GROWTH, &[]);
    Script::new(blocks(held + GROWTH, FORKED), held_and_synced(held), timed, GROWTH)
}

/// Blocks anywhere among those held.
fn anywhere(held: usize, count: usize) -> impl Iterator<Item = usize> {
    (0..count).map(move |at| (at * 0x9e37_79b1 + 12_345) % held)
}

fn again(held: usize) -> Script {
    let timed = each(anywhere(held, GROWTH), &[]);
    Script::new(blocks(held, FORKED), held_and_synced(held), timed, GROWTH)
}

/// Eight blocks again and again, after a first time that is not timed: what
/// they need is in the cache.
fn eight(held: usize) -> Script {
    let puts = |count| each(anywhere(held, 8).collect::<Vec<_>>().repeat(count / 8).into_iter(), &[]);
    let before = [held_and_synced(held), puts(8)].concat();
    Script::new(blocks(held, FORKED), before, puts(GROWTH), GROWTH)
}

fn grow(held: usize) -> Script {
    let timed = each(held..held + GROWTH, &[Step::Sync, Step::Best]);
    Script::new(blocks(held + GROWTH, FORKED), held_and_synced(held), timed, GROWTH)
}

/// New blocks are not canonical until a plan says so. What is held stands as
/// the plans for earlier blocks left it.
fn steady(held: usize) -> Script {
    let terms = Terms { n: EPOCH, ..TERMS };
    let mut blocks = blocks(held + GROWTH, FORKED);
    blocks.iter_mut().for_each(|block| block.epoch = block.index / EPOCH);
    blocks[held..].iter_mut().for_each(|block| block.marks.canonical = false);
    let mut scribe = Scribe::new(settled(blocks, held, terms), held, terms);
    for at in held..held + GROWTH {
        scribe.put(at);
        scribe.both_plans();
    }
    scribe.script(held_and_synced(held), GROWTH)
}

fn load(held: usize) -> Script {
    Script::new(blocks(held, FORKED), vec![], vec![Step::Start(held)], held)
}

fn rebuild(held: usize) -> Script {
    let before = [held_and_synced(held), vec![Step::Reload(held)]].concat();
    Script::new(blocks(held, FORKED), before, vec![Step::Sync], held)
}

fn first(held: usize) -> Script {
    Script::new(blocks(held, FORKED), vec![], held_and_synced(held), held)
}

/// The line misses one block, and goes on above it.
fn wait(held: usize) -> Script {
    assert_eq!(held % 4, 0, "a block of the line, so that all later ones are above it");
    let waiting = each(held + 1..held + 1 + WAITING, &[]);
    let before = [vec![Step::Start(held)], waiting, vec![Step::Sync]].concat();
    Script::new(blocks(held + 1 + WAITING, FORKED), before, vec![Step::Put(held), Step::Sync, Step::Best], 1)
}

/// A line whose last block is its best, about so many blocks.
fn whole_line(held: usize) -> usize {
    held - held % 4 - 3
}

/// To the fork and back: its last block comes, then one more of the line's.
fn reorganise(held: usize) -> Script {
    let held = whole_line(held) - 100;
    let blocks = rivals(held);
    let terms = floored(&blocks);
    let mut scribe = Scribe::new(blocks, held + 100, terms);
    for (at, entries) in [(held + 100, 201), (held + 101, 202)] {
        scribe.put(at);
        scribe.sync();
        assert_eq!(scribe.plan(false), entries, "a reorganisation 100 deep");
        scribe.sync();
    }
    scribe.script(held_and_synced(held + 100), 2)
}

fn removal(held: usize, at: usize, times: usize) -> Script {
    let once = [Step::Remove(at), Step::Sync, Step::Put(at), Step::Sync];
    Script::new(blocks(held, FORKED), held_and_synced(held), once.repeat(times), times)
}

fn tip(held: usize) -> Script {
    removal(whole_line(held), whole_line(held) - 1, 64)
}

fn middle(held: usize) -> Script {
    removal(held, held / 8 * 4, 1)
}

fn overrun(held: usize) -> Script {
    let look = [each(anywhere(held, SHORT + 1), &[]), vec![Step::Sync, Step::Best]].concat();
    let script = Script::new(blocks(held, FORKED), held_and_synced(held), look.repeat(2), 2);
    Script { journal: SHORT as u64, ..script }
}

fn leaf(held: usize) -> Script {
    let timed = each(held..held + GROWTH, &[Step::Sync, Step::Best]);
    Script::new(leafy(LEAVES + GROWTH), held_and_synced(held), timed, GROWTH)
}

/// How often a round asks for a plan or a list: some selects take less than
/// reading the clock does, some adopts a good part of a second.
fn times(step: Step, held: usize) -> usize {
    if let Step::Select = step {
        256
    } else {
        65_536 / held
    }
}

fn asked(blocks: Vec<Block<String>>, step: Step) -> Script {
    let (held, times) = (blocks.len(), times(step, blocks.len()));
    Script::new(blocks, held_and_synced(held), [step].repeat(times), times)
}

/// For each number of blocks held, just these.
pub fn held_at() -> [Script; 3] {
    HELD.map(load)
}

/// The plans' own table: over few and over many leaves, with the whole line
/// canonical or not its last 64 blocks.
pub fn plan_rows() -> Vec<(String, usize, Script)> {
    let mut all = Vec::new();
    for (what, step) in [("select", Step::Select), ("adopt", Step::Adopt)] {
        for (line, beyond) in [("the line canonical", 0), ("its last 64 not", 64)] {
            for (leaves, every) in [("few leaves", 1_000), ("a fourth are leaves", 4)] {
                for held in HELD {
                    let blocks = blocks(held, Shape { every, beyond });
                    let script = Script { terms: TERMS, ..asked(blocks, step) };
                    all.push((format!("{what}, {line}; {leaves}"), held, script));
                }
            }
        }
    }
    all
}
