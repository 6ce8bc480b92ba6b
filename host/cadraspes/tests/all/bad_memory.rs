//! Memory that no call left: every call ends with some number, stays inside of
//! what it was lent, and a refusal changes nothing. (The guarded library looks
//! at all of it.)
use crate::common::{with_library, Rng};
use crate::guarded::{Library, Memory, Words};
use cadraspes::boundary;
use history::{Block, Call, Hash, Marks, Terms};

pub fn name(number: u64) -> Hash {
    let mut hash = [0; 32];
    hash[24..].copy_from_slice(&number.to_be_bytes());
    Hash(hash)
}

fn block(hash: Hash) -> Block<String> {
    let text = || "1".to_string();
    Block { hash, index: 0, epoch: 0, prev: name(1), target: text(), actual: text(), marks: Marks::default() }
}

type Calling<'a> = &'a dyn Fn(&mut Memory, Hash) -> u64;

/// Every call, one after the other on the same memory, then each alone on the
/// memory as it was. Gives the numbers.
fn every_call(memory: &Memory, rng: &mut Rng) -> Vec<u64> {
    let names = [name(rng.below(9)), name(0x77), Hash(std::array::from_fn(|_| rng.next() as u8))];
    let (version, generation) = (memory.number(boundary::version), memory.number(boundary::generation));
    let back = version.words[0].wrapping_sub(rng.below(12));
    let mut numbers = vec![version.number, generation.number, memory.number(boundary::effective_count).number];
    for bytes in [0, 33, 32 * 9] {
        numbers.push(memory.changes(generation.words[0], back, bytes).0.number);
    }
    let terms = Terms { floor: rng.pick(&[None, Some(0), Some(1)]), n: rng.below(4), clock: -7 };
    // Lists that may be too short for what the memory is taken to hold.
    let (bytes, places) = (rng.pick(&[0, 31, 32, 100, 32 * 9]), rng.pick(&[0, 1, 3, 5, 6, 9]));
    let calls: [Calling; 19] = [
        &|memory, hash| memory.load(0, &block(hash)),
        &|memory, hash| memory.put(1, &block(hash)),
        &|memory, hash| memory.remove(0, hash),
        &|memory, hash| memory.call(|mem| boundary::answer(mem, &hash.0, 2)),
        &|memory, hash| memory.effective(hash).number,
        &|memory, _| memory.changes(generation.words[0], back, bytes).0.number,
        &|memory, hash| memory.block(boundary::node, hash).number,
        &|memory, hash| memory.block(boundary::parent, hash).number,
        &|memory, hash| memory.value(boundary::linked_value, hash).number,
        &|memory, hash| memory.value(boundary::canonical_linked, hash).number,
        &|memory, _| memory.tip(boundary::best).number,
        &|memory, _| memory.tip(boundary::canonical_best).number,
        &|memory, _| memory.number(boundary::canonical_count).number,
        &|memory, _| memory.number(boundary::live_count).number,
        &|memory, _| memory.leaves(bytes).0.number,
        &|memory, _| memory.plan(boundary::select, &terms, places).0.number,
        &|memory, _| memory.plan(boundary::adopt, &terms, places).0.number,
        &|memory, _| memory.call(boundary::sync),
        &|memory, _| memory.call(|mem| boundary::reload(mem, u64::MAX, 3)),
    ];
    let mut together = memory.clone();
    for hash in names {
        for call in &calls[..18] {
            numbers.push(call(&mut together, hash));
            numbers.push(call(&mut memory.clone(), hash));
        }
    }
    numbers.push(calls[18](&mut together, names[0]));
    numbers
}

/// What the questions about the tree answer once a sync covers the present,
/// though no call left the memory.
fn synced(memory: &Memory, rng: &mut Rng) -> Vec<u64> {
    let mut memory = memory.clone();
    let number = memory.call(boundary::sync);
    let mut numbers = every_call(&memory, rng);
    numbers.push(number);
    numbers
}

/// A memory of six hashes and five entries, all linked but one, that a sync
/// covers.
pub fn linked() -> Memory {
    let mut library = Library::default();
    let mut call = |line: &str| assert_eq!(library.call(&Call::read(line).unwrap()).to_string(), "0", "{line}");
    call("start 6 5 1 0");
    for block in ["8 0 0 0", "1 1 0 8", "2 1 0 8", "3 2 0 1", "4 3 0 3", "5 3 0 7"] {
        call(&format!("load 2 {block} \"1\" \"1\" c - - -"));
    }
    call("sync");
    call("put 1 2 1 0 8 \"1\" \"1\" - - - -");
    call("answer 4 2");
    call("sync");
    library.memory.unwrap()
}

/// A memory of six hashes and five entries that a sync covers: a canonical line
/// and a fork of more work beside it, so that both plans have much to do.
pub fn forked() -> Memory {
    let mut library = Library::default();
    let mut told = |line: &str| library.call(&Call::read(line).unwrap()).to_string();
    assert_eq!(told("start 6 5 1 0"), "0");
    for block in ["8 0 0 0 \"1\" \"1\" c", "1 1 0 8 \"1\" \"1\" c", "2 2 0 1 \"1\" \"1\" c"] {
        assert_eq!(told(&format!("load 2 {block} 3 - 5")), "0");
    }
    for block in ["3 1 0 8 \"1\" \"2\"", "4 2 0 3 \"1\" \"2\"", "5 3 0 4 \"1\" \"2\""] {
        assert_eq!(told(&format!("put 0 {block} - - - -")), "0");
    }
    assert_eq!(told("sync"), "0");
    assert!(told("select - 1 7").starts_with("0 apply 1 5\n"));
    assert!(told("adopt - 1 7").starts_with("0 apply 3 5\n"));
    library.memory.unwrap()
}

/// A memory of six hashes and five entries, full, after some touches.
pub fn sound() -> Memory {
    let mut library = Library::default();
    let mut call = |line: String| assert_eq!(library.call(&Call::read(&line).unwrap()).to_string(), "0", "{line}");
    call("start 6 5 1 0".to_string());
    call("load 2 8 0 0 1 \"1\" \"1\" - - - -".to_string());
    for (at, hash) in [1, 2, 3, 1, 4, 2, 1].into_iter().enumerate() {
        call(format!("put {} {hash} 0 0 1 \"1\" \"1\" oc 7 peer-tip:3:4 {hash}", at % 3));
    }
    call("remove 1 2".to_string());
    call("answer 3 2".to_string());
    library.memory.unwrap()
}

#[test]
fn memory_that_is_empty_or_all_ones_or_all_one_number() {
    if !with_library() {
        return;
    }
    let mut rng = Rng(1);
    for words in [0, 1, 2, 63, 64, 65, 152, 153, 1000] {
        for fill in [0, 1, 2, 5, u64::MAX, 1 << 63, 64] {
            let memory = Memory(Words::new(&vec![fill; words]));
            every_call(&memory, &mut rng);
            synced(&memory, &mut rng);
        }
    }
}

/// Words of any kind behind a head whose rooms are right, so that calls go on.
#[test]
fn memory_of_random_words() {
    if !with_library() {
        return;
    }
    let mut rng = Rng(2);
    let mut numbers = [0u64; 14];
    for turn in 0..4000 {
        let (hashes, journal) = (1 + rng.below(9), 1 + rng.below(9));
        let bits = [64, 64, 4, 3, 2, 1][turn % 6];
        let random = |_| rng.next() >> (64 - bits);
        let mut words: Vec<u64> = (0..64 + 81 * hashes + 8 * journal).map(random).collect();
        if turn % 5 > 0 {
            (words[0], words[1]) = (hashes, journal);
        }
        let memory = Memory(Words::new(&words));
        for number in every_call(&memory, &mut rng).into_iter().chain(synced(&memory, &mut rng)) {
            numbers[number as usize] += 1;
        }
    }
    assert!(numbers[0] > 10_000, "most calls got past the head: {numbers:?}");
}

/// A sync of more places ends too, in n * n + n turns at most, and so do plans
/// after it.
#[test]
fn a_sync_of_any_memory_ends() {
    if !with_library() {
        return;
    }
    let mut rng = Rng(9);
    for turn in 0..60 {
        let (hashes, journal) = (20 + rng.below(100), 1 + rng.below(50));
        let bits = [64, 7, 6, 3, 2, 1][turn % 6];
        let random = |_| rng.next() >> (64 - bits);
        let mut words: Vec<u64> = (0..64 + 81 * hashes + 8 * journal).map(random).collect();
        (words[0], words[1]) = (hashes, journal);
        let mut memory = Memory(Words::new(&words));
        for _ in 0..3 {
            assert_eq!(memory.call(boundary::sync), 0);
            memory.leaves(32 * 200);
            let terms = Terms { floor: None, n: rng.below(9), clock: 1 };
            memory.plan(boundary::select, &terms, 200);
            memory.plan(boundary::adopt, &terms, 200);
            memory.tip(boundary::best);
        }
    }
}

/// Each word of a sound memory in turn becomes another.
#[test]
fn one_word_is_another() {
    if !with_library() {
        return;
    }
    let mut rng = Rng(3);
    for sound in [sound(), linked(), forked()] {
        for at in 0..sound.0.shown().len() {
            let word = sound.0.shown()[at];
            let bits: [u64; 6] = std::array::from_fn(|_| word ^ 1 << rng.below(64));
            let small = [0, 1, 2, 5, 6, 7, u64::MAX, word.wrapping_add(1), word.wrapping_sub(1), rng.next()];
            for other in bits.into_iter().chain(small) {
                let mut flipped = sound.clone();
                flipped.0.inner()[at] = other;
                every_call(&flipped, &mut rng);
            }
        }
    }
}

/// Several words at once, and what calls leave of it is flipped again.
#[test]
fn many_words_are_others_again_and_again() {
    if !with_library() {
        return;
    }
    let (sounds, mut rng) = ([sound(), linked(), forked()], Rng(4));
    let length = sounds[0].0.shown().len() as u64;
    for turn in 0..3000 {
        let mut memory = sounds[turn % 3].clone();
        for _ in 0..6 {
            for _ in 0..1 + rng.below(4) {
                let (at, other) = (2 + rng.below(length - 2), rng.next() >> rng.pick(&[0, 1, 32, 61, 62]));
                memory.0.inner()[at as usize] = other;
            }
            let hash = name(rng.below(9));
            match rng.below(6) {
                4 | 5 => memory.call(boundary::sync),
                0 => memory.put(rng.below(4), &block(hash)),
                1 => memory.remove(rng.below(3), hash),
                2 => memory.call(|mem| boundary::answer(mem, &hash.0, rng.below(4))),
                _ => memory.effective(hash).number,
            };
        }
        every_call(&memory, &mut rng);
    }
}

/// A start asks nothing of the memory: what it answers and what is answered
/// after it do not depend on the words that were there.
#[test]
fn a_start_makes_any_memory_sound() {
    if !with_library() {
        return;
    }
    let mut rng = Rng(5);
    for turn in 0..300 {
        let random = |_| rng.next() >> [0, 62, 60][turn % 3];
        let mut memory = Memory(Words::new(&(0..64 + 81 * 3 + 8 * 2).map(random).collect::<Vec<u64>>()));
        assert_eq!(memory.call(|mem| boundary::start(mem, 3, 2, 5, 0)), 0);
        for (hash, number) in [(1, 0), (2, 0), (3, 0), (4, 5), (1, 0)] {
            assert_eq!(memory.put(0, &block(name(hash))), number);
        }
        assert_eq!(memory.number(boundary::effective_count).words, [3]);
        assert_eq!(memory.number(boundary::version).words, [4]);
        assert_eq!(memory.changes(5, 2, 64).0.words, [1, 2]);
        assert_eq!(memory.changes(5, 1, 64).0.words, [0, 0]);
        assert_eq!(memory.effective(name(4)).words[0], 0);
    }
}
