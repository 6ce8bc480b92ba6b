//! The blocks of the scripts, whose hashes are spread as digests are.
use cadraspes::{Block, Hash, Marks};

/// A line of canonical blocks, but for its last ones; now and then a fork of
/// one block that is not canonical.
#[derive(Clone, Copy)]
pub struct Shape {
    /// One block of so many is a fork, 4 or more.
    pub every: usize,
    /// So many blocks at the end are not canonical.
    pub beyond: usize,
}

pub const FORKED: Shape = Shape { every: 4, beyond: 0 };

pub fn hash(number: u64) -> [u8; 32] {
    let mut state = number.wrapping_mul(0x9e37_79b9_7f4a_7c15);
    let mut bytes = [0; 32];
    for word in bytes.chunks_exact_mut(8) {
        state = state.wrapping_add(0x9e37_79b9_7f4a_7c15);
        let mixed = (state ^ (state >> 30)).wrapping_mul(0xbf58_476d_1ce4_e5b9);
        word.copy_from_slice(&(mixed ^ (mixed >> 27)).to_be_bytes());
    }
    bytes
}

/// A block on another, not canonical; its number tells its hash.
pub fn child(number: usize, parent: &Block<String>, actual: usize) -> Block<String> {
    Block { index: parent.index + 1, prev: parent.hash, ..first(number, actual) }
}

fn first(number: usize, actual: usize) -> Block<String> {
    let (hash, prev) = (Hash(hash(number as u64)), Hash([0; 32]));
    let (target, actual) = ("1000000".to_string(), actual.to_string());
    Block { hash, index: 0, epoch: 0, prev, target, actual, marks: Marks::default() }
}

pub fn blocks(count: usize, shape: Shape) -> Vec<Block<String>> {
    let mut all: Vec<Block<String>> = Vec::new();
    let mut line = 0;
    for at in 0..count {
        let fork = at % shape.every == shape.every - 1;
        let (parent, actual) = (if fork { at - 2 } else { line }, 1_000_000 + 37 * at % 1_000);
        let mut block = if at == 0 { first(at, actual) } else { child(at, &all[parent], actual) };
        block.marks.canonical = !fork && at + shape.beyond < count;
        all.push(block);
        line = if fork { line } else { at };
    }
    all
}

/// A line of 64 canonical blocks, and so many leaves on the sixteen below its
/// tip, none of more work than the tip.
pub fn leafy(leaves: usize) -> Vec<Block<String>> {
    let mut all = blocks(64, Shape { every: usize::MAX, beyond: 0 });
    for at in 64..64 + leaves {
        all.push(child(at, &all[47 + at % 16], 1_000_000));
    }
    all
}

/// A line that ends in its best block; a fork of 101 blocks from 100 below its
/// tip, the last of which makes it the heavier; and a block that goes on the
/// line, which is then the heavier again. All but the last two are to be held.
pub fn rivals(count: usize) -> Vec<Block<String>> {
    let mut all = blocks(count, FORKED);
    let tip = all[count - 1].clone();
    let below = |block: &&Block<String>| block.marks.canonical && block.index + 100 == tip.index;
    let mut last = all.iter().find(below).expect("a line of more than 100").clone();
    for at in count..count + 101 {
        last = child(at, &last, 1_000_000);
        all.push(last.clone());
    }
    all.push(child(count + 101, &tip, 1_000_999));
    all
}
