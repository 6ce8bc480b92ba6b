//! Makes a history small as long as something holds of it.
use history::{Block, Call, Hash, Marks, Terms};
use std::cell::Cell;

/// How many bytes of histories are tried at most: small ones are done long
/// before, and of one of full size some are left out in half an hour or so.
const TRIED: usize = 1 << 31;

/// Whether something holds of a history, as long as any may be tried.
struct Tries<'a> {
    holds: &'a dyn Fn(&[u8]) -> bool,
    left: Cell<usize>,
}

impl Tries<'_> {
    fn hold(&self, lines: &[Vec<u8>]) -> bool {
        let history = lines.concat();
        let left = self.left.get().checked_sub(history.len());
        self.left.set(left.unwrap_or(0));
        left.is_some() && (self.holds)(&history)
    }

    fn over(&self) -> bool {
        self.left.get() == 0
    }
}

/// Leaves out and simplifies what it can as long as `holds`; none if it does
/// not hold to begin with.
pub fn shrink(history: &[u8], holds: &dyn Fn(&[u8]) -> bool) -> Option<Vec<u8>> {
    shrink_within(TRIED, history, holds)
}

/// The same with so many bytes of histories tried at most.
pub fn shrink_within(bytes: usize, history: &[u8], holds: &dyn Fn(&[u8]) -> bool) -> Option<Vec<u8>> {
    let whole = history.split_inclusive(|byte| *byte == b'\n').filter(|line| line[0] != b'#');
    let mut lines: Vec<Vec<u8>> = whole.map(<[u8]>::to_vec).collect();
    if !holds(&lines.concat()) {
        return None;
    }
    let tries = Tries { holds, left: Cell::new(bytes) };
    loop {
        let before = lines.clone();
        leave_out(&mut lines, &tries);
        take_out_blocks(&mut lines, &tries);
        simplify(&mut lines, &tries);
        if lines == before || tries.over() {
            return Some(lines.concat());
        }
    }
}

/// Leaves out runs of lines, long ones first.
fn leave_out(lines: &mut Vec<Vec<u8>>, tries: &Tries) {
    let mut size = lines.len().div_ceil(2);
    loop {
        let before = lines.len();
        let mut at = 0;
        while at < lines.len() && !tries.over() {
            let end = (at + size).min(lines.len());
            let rest = [&lines[..at], &lines[end..]].concat();
            if tries.hold(&rest) {
                *lines = rest;
            } else {
                at += size;
            }
        }
        if (size <= 1 && lines.len() == before) || tries.over() {
            return;
        }
        size = if lines.len() < before { size.min(lines.len().max(1)) } else { size.div_ceil(2) };
    }
}

/// Takes blocks out of the middle of chains: what lay above one now lies on
/// what it lay on.
fn take_out_blocks(lines: &mut Vec<Vec<u8>>, tries: &Tries) {
    let mut at = 0;
    while at < lines.len() && !tries.over() {
        let shorter = block_of(&lines[at]).map(|out| without(lines, &out));
        match shorter.filter(|shorter| shorter.len() < lines.len() && tries.hold(shorter)) {
            Some(shorter) => *lines = shorter,
            None => at += 1,
        }
    }
}

fn read(line: &[u8]) -> Option<Call> {
    Call::read(String::from_utf8_lossy(line).trim_end_matches('\n')).ok()
}

fn block_of(line: &[u8]) -> Option<Block<String>> {
    match read(line)? {
        Call::Load(_, block) | Call::Put(_, block) => Some(block),
        _ => None,
    }
}

/// The history without a block: those that named it name what it named, and
/// all indexes above its own are one less.
fn without(lines: &[Vec<u8>], out: &Block<String>) -> Vec<Vec<u8>> {
    let lower = |block: &Block<String>| {
        let prev = if block.prev == out.hash { out.prev } else { block.prev };
        Block { prev, index: block.index - u64::from(block.index > out.index), ..block.clone() }
    };
    let kept = lines.iter().filter(|line| block_of(line).is_none_or(|block| block.hash != out.hash));
    let lowered = |line: &Vec<u8>| match read(line) {
        Some(Call::Load(store, block)) => format!("{}\n", Call::Load(store, lower(&block))).into_bytes(),
        Some(Call::Put(store, block)) => format!("{}\n", Call::Put(store, lower(&block))).into_bytes(),
        _ => line.clone(),
    };
    kept.map(lowered).collect()
}

/// Puts plainer calls in the place of calls.
fn simplify(lines: &mut [Vec<u8>], tries: &Tries) {
    for at in 0..lines.len() {
        let Some(mut call) = read(&lines[at]).filter(|_| !tries.over()) else {
            continue;
        };
        while let Some(plainer) = plainer(&call).into_iter().find(|plainer| {
            let kept = std::mem::replace(&mut lines[at], format!("{plainer}\n").into_bytes());
            let good = tries.hold(lines);
            if !good {
                lines[at] = kept;
            }
            good
        }) {
            call = plainer;
        }
    }
}

/// Calls that are a step plainer than this one.
fn plainer(call: &Call) -> Vec<Call> {
    let calls: Vec<Call> = match call {
        Call::Start { hashes, journal, generation, version } => {
            let start = |hashes: u64, journal: u64, generation: u64, version: u64| Call::Start {
                hashes,
                journal,
                generation,
                version,
            };
            vec![
                start((*hashes).min(16), *journal, *generation, *version),
                start(*hashes, 200_000, *generation, *version),
                start(*hashes, *journal, 1, *version),
                start(*hashes, *journal, *generation, 0),
            ]
        }
        Call::Load(store, block) => vec![Call::Put(*store, block.clone())],
        Call::Put(store, block) => plainer_blocks(*store, block).map(|(s, b)| Call::Put(s, b)).collect(),
        Call::Select(terms) => plainer_terms(terms).map(Call::Select).collect(),
        Call::Adopt(terms) => plainer_terms(terms).map(Call::Adopt).collect(),
        _ => Vec::new(),
    };
    calls.into_iter().filter(|other| other != call).collect()
}

fn plainer_blocks(store: u8, block: &Block<String>) -> impl Iterator<Item = (u8, Block<String>)> {
    let with = |change: &dyn Fn(&mut Block<String>)| {
        let mut plain = block.clone();
        change(&mut plain);
        (store, plain)
    };
    let Marks { orphaned, canonical, .. } = block.marks;
    let mut all = vec![
        (0, block.clone()),
        with(&|b| b.marks = Marks { orphaned, canonical, ..Marks::default() }),
        with(&|b| b.marks.orphaned = false),
        with(&|b| b.marks.canonical = false),
        with(&|b| b.prev = if b.index == 0 { Hash([0; 32]) } else { b.prev }),
    ];
    let low = |text: &str, to: &str| text.len() > to.len() || (text.len() == to.len() && text > to);
    for text in ["1", "2", "3"] {
        if low(&block.actual, text) {
            all.push(with(&|b| b.actual = text.to_string()));
        }
        if low(&block.target, text) {
            all.push(with(&|b| b.target = text.to_string()));
        }
    }
    all.extend((0..4).take_while(|epoch| *epoch < block.epoch).map(|epoch| with(&|b| b.epoch = epoch)));
    all.into_iter()
}

fn plainer_terms(terms: &Terms) -> impl Iterator<Item = Terms> {
    let mut all = vec![Terms { floor: None, ..*terms }, Terms { clock: 100, ..*terms }];
    all.extend([0, 1, 2, 10].into_iter().take_while(|n| *n < terms.n).map(|n| Terms { n, ..*terms }));
    all.extend(terms.floor.map(|floor| Terms { floor: Some(floor / 2), ..*terms }));
    all.into_iter()
}
