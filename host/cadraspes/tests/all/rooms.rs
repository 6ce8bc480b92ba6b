//! 1 ROOM: rooms out of range, and memory by the formula of docs/MEMORY.md.
use crate::common::with_library;
use crate::guarded::{Memory, Words};
use cadraspes::{boundary, Refusal, Tree};

/// 64 + 81 words a hash + 8 a journal entry.
const ROOMS: [(u64, u64, usize); 6] = [
    (1, 1, 153),
    (1, 200_000, 1_600_145),
    (7, 5, 671),
    (32_768, 1, 2_654_280),
    (1_000, 1_000, 89_064),
    (32_768, 200_000, 4_254_272),
];

fn start(words: usize, hashes: u64, journal: u64) -> u64 {
    Memory(Words::new(&vec![u64::MAX; words])).call(|mem| boundary::start(mem, hashes, journal, 3, 0))
}

#[test]
fn memory_one_word_short_is_refused_and_the_formula_is_enough() {
    if with_library() {
        for (hashes, journal, words) in ROOMS {
            assert_eq!(start(words - 1, hashes, journal), 1, "{hashes} {journal}");
            assert_eq!(start(words, hashes, journal), 0, "{hashes} {journal}");
            assert_eq!(start(words + 1, hashes, journal), 0, "{hashes} {journal}");
        }
    }
}

/// At most 1,024 bytes a hash, 64 a journal entry, and 4,096.
#[test]
fn the_formula_is_within_document_01s_bound() {
    for (hashes, journal, words) in ROOMS {
        assert_eq!(cadraspes::room(hashes, journal), words as u64);
        assert!(8 * words as u64 <= 1_024 * hashes + 64 * journal + 4_096, "{hashes} {journal}");
    }
}

#[test]
fn rooms_out_of_range_are_refused_however_long_the_memory() {
    if with_library() {
        let ends = [1 << 32, 1 << 63, u64::MAX / 81, u64::MAX - 1, u64::MAX];
        for bad in [0, 32_769, 65_536].into_iter().chain(ends) {
            assert_eq!(start(4_300_000, bad, 1), 1, "hashes {bad}");
        }
        for bad in [0, 200_001, 400_000].into_iter().chain(ends) {
            assert_eq!(start(4_300_000, 1, bad), 1, "journal {bad}");
        }
        assert_eq!(start(4_300_000, u64::MAX, u64::MAX), 1);
    }
}

#[test]
fn short_memories_of_every_length() {
    if with_library() {
        for words in 0..153 {
            assert_eq!(start(words, 1, 1), 1, "{words} words");
        }
    }
}

#[test]
fn a_tree_is_refused_with_a_number_and_a_name() {
    if with_library() {
        let refusal = Tree::new(0, 1, 1, 0).err().expect("no room");
        assert_eq!((refusal, refusal.number(), refusal.name()), (Refusal::Room, 1, "ROOM"));
        assert_eq!(Tree::new(40_000, 1, 1, 0).err(), Some(Refusal::Room));
        assert_eq!(Tree::new(1, u64::MAX, 1, 0).err(), Some(Refusal::Room));
        assert_eq!(Tree::in_memory(vec![7; 152], 1, 1, 1, 0).err(), Some(Refusal::Room));
        assert!(Tree::in_memory(vec![7; 153], 1, 1, 1, 0).is_ok());
    }
    let error: Box<dyn std::error::Error> = Box::new(Refusal::Full);
    assert_eq!(error.to_string(), "5 FULL: the hash has no room and all room is taken");
    assert_eq!((1..=14).filter_map(Refusal::of).map(Refusal::number).collect::<Vec<_>>(), (1..=13).collect::<Vec<_>>());
}
