//! The time of one call of the library, by how many hashes are held. Each cell
//! is the median of several rounds; a round makes some calls on a copy of one
//! memory.
use crate::blocks::hash;
use crate::clock;
use cadraspes::boundary::{self, Record};
use cadraspes::room;
use std::hint::black_box;

const ROOMS: [u64; 3] = [1_024, 8_192, 32_768];
const JOURNAL: u64 = 4_096;
/// Calls of a round; as many places are left free.
const CALLS: u64 = 256;
const ROUNDS: usize = 41;
const COPY: [u64; 12] = [1, 0, 0, 0, 0, 0, 0, 0, 0, 0, 0, 0];

/// A block that a number tells; its hashes are spread as digests are.
struct Block {
    hash: [u8; 32],
    index: u64,
    prev: [u8; 32],
}

impl Block {
    fn of(number: u64) -> Block {
        Block { hash: hash(number), index: u64::from(64 - number.leading_zeros()), prev: hash(number / 2) }
    }

    fn record(&self) -> Record<'_> {
        let Block { hash, index, prev } = self;
        Record { hash, index: *index, epoch: 0, prev, target: b"1000000", actual: b"1234567", copy: &COPY }
    }
}

/// A memory with all but some of its room taken, while loads are still taken.
fn filled(hashes: u64) -> Vec<u64> {
    let mut memory = vec![0; room(hashes, JOURNAL) as usize];
    assert_eq!(boundary::start(&mut memory, hashes, JOURNAL, 1, 0), 0);
    for number in 0..hashes - CALLS {
        assert_eq!(boundary::load(&mut memory, 0, &Block::of(number).record()), 0);
    }
    memory
}

/// The same after touches.
fn touched(filled: &[u64], held: u64) -> Vec<u64> {
    let mut memory = filled.to_vec();
    for block in Which::Anywhere.blocks(held) {
        assert_eq!(boundary::put(&mut memory, 1, &block.record()), 0);
    }
    memory
}

/// The blocks of a round's calls.
#[derive(Clone, Copy)]
enum Which {
    /// Not held yet.
    New,
    /// Held, anywhere in the memory, each once.
    Anywhere,
    /// Eight that are held, again and again, after a first time that is not
    /// measured: their words are in the cache.
    Eight,
}

impl Which {
    fn blocks(self, held: u64) -> Vec<Block> {
        let any = |at: u64| (at * 0x9e37_79b1 + 12_345) % held;
        let number = |at: u64| match self {
            Which::New => held + at,
            Which::Anywhere => any(at),
            Which::Eight => any(at % 8),
        };
        (0..CALLS).map(|at| Block::of(number(at))).collect()
    }
}

/// Nanoseconds a call: the median of the rounds.
fn time(memory: &[u64], which: Which, blocks: &[Block], call: Call) -> f64 {
    let before = if let Which::Eight = which { &blocks[..8] } else { &[] };
    let mut rounds: Vec<f64> = (0..ROUNDS)
        .map(|_| {
            let mut memory = memory.to_vec();
            before.iter().for_each(|block| assert_eq!(call(&mut memory, block), 0));
            let from = clock::now();
            let refused = blocks.iter().filter(|block| call(black_box(&mut memory), block) != 0).count();
            let time = (clock::now() - from) / blocks.len() as f64;
            assert_eq!(refused, 0, "no call is refused");
            time
        })
        .collect();
    rounds.sort_by(f64::total_cmp);
    rounds[ROUNDS / 2]
}

type Call = fn(&mut [u64], &Block) -> u64;

const LOAD: Call = |mem, block| boundary::load(mem, 0, &block.record());
const PUT: Call = |mem, block| boundary::put(mem, 0, &block.record());
const REMOVE: Call = |mem, block| boundary::remove(mem, 0, &block.hash);
const ANSWER: Call = |mem, block| boundary::answer(mem, &block.hash, 1);
const EFFECTIVE: Call = |mem, block| boundary::effective(mem, &block.hash, &mut black_box([0; 29]));
const COUNT: Call = |mem, _| boundary::effective_count(mem, black_box(&mut 0));
const CHANGES: Call = |mem, _| {
    let (list, out) = (&mut black_box([0; 16 * 32]), &mut black_box([0; 2]));
    boundary::changes(mem, 1, CALLS - 16, list, out) + (16 - out[1])
};

const MEASURED: [(&str, Which, Call); 11] = [
    ("load, new hash", Which::New, LOAD),
    ("put, new hash", Which::New, PUT),
    ("put again", Which::Anywhere, PUT),
    ("put again, eight hashes", Which::Eight, PUT),
    ("removal", Which::Anywhere, REMOVE),
    ("answer", Which::Anywhere, ANSWER),
    ("answer, eight hashes", Which::Eight, ANSWER),
    ("effective", Which::Anywhere, EFFECTIVE),
    ("effective, eight hashes", Which::Eight, EFFECTIVE),
    ("changes of the last 16 versions", Which::New, CHANGES),
    ("effective count", Which::New, COUNT),
];

pub fn table() {
    let memories = ROOMS.map(|hashes| {
        let filled = filled(hashes);
        let touched = touched(&filled, hashes - CALLS);
        (filled, touched)
    });
    println!("| one call, ns | {} |", ROOMS.map(|hashes| format!("{hashes} hashes")).join(" | "));
    println!("|---|{}", "---:|".repeat(ROOMS.len()));
    for (name, which, call) in MEASURED {
        let cell = |(hashes, (filled, touched)): (&u64, &(Vec<u64>, Vec<u64>))| {
            let memory = if name.starts_with("load") { filled } else { touched };
            format!("{:.0}", time(memory, which, &which.blocks(hashes - CALLS), call))
        };
        let cells: Vec<String> = ROOMS.iter().zip(&memories).map(cell).collect();
        println!("| {name} | {} |", cells.join(" | "));
    }
    let words = ROOMS.map(|hashes| room(hashes, JOURNAL));
    println!("| memory, words | {} |", words.map(|words| words.to_string()).join(" | "));
    println!("| memory, bytes | {} |", words.map(|words| (8 * words).to_string()).join(" | "));
}
