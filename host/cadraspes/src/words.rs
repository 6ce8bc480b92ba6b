//! Records as words (docs/MEMORY.md): the twelve of a copy, the twenty-nine
//! that a question for a block writes, the three of a linked value, those of a
//! comparison, and the sixteen of a plan's entry.
use crate::boundary::{promised, ChoiceWords, CopyWords, EntryWords, ShownWords, SideWords, ValueWords};
use crate::{Amount, Block, Choice, Entry, Hash, Marks, Reason, Side, Work};

/// Four words of a hash, the most significant first.
fn hash_words(hash: Hash) -> [u64; 4] {
    std::array::from_fn(|at| u64::from_be_bytes(std::array::from_fn(|byte| hash.0[8 * at + byte])))
}

fn hash_of(words: &[u64]) -> Hash {
    let mut bytes = [0; 32];
    bytes.chunks_exact_mut(8).zip(words).for_each(|(part, word)| part.copy_from_slice(&word.to_be_bytes()));
    Hash(bytes)
}

/// Two words of an amount, the lower first.
fn amount_words(value: u128) -> [u64; 2] {
    [value as u64, (value >> 64) as u64]
}

fn amount_of(words: &[u64]) -> u128 {
    u128::from(words[1]) << 64 | u128::from(words[0])
}

/// An amount in three words: kind 1 for a readable one.
pub fn reading_of(kind: u64, words: &[u64]) -> Amount {
    (kind == 1).then(|| amount_of(words))
}

/// What the words of a linked value mean.
pub fn value_of(words: &ValueWords) -> Option<Work> {
    (words[0] > 0).then(|| Work { value: amount_of(&words[1..]), ok: words[0] == 2 })
}

/// The kind of a time, and its word: 1 from 0 on, 2 below.
fn time_words(time: Option<i64>) -> [u64; 2] {
    match time {
        None => [0, 0],
        Some(time) if time < 0 => [2, (-1 - time) as u64],
        Some(time) => [1, time as u64],
    }
}

fn time_of(kind: u64, word: u64) -> Option<i64> {
    let time = (word % (1 << 63)) as i64;
    match kind {
        0 => None,
        1 => Some(time),
        _ => Some(-1 - time),
    }
}

/// The kind of a reason, and four words of its numbers.
fn reason_words(reason: Reason) -> (u64, [u64; 4]) {
    let both = |one: u128, other: u128| {
        let (one, other) = (amount_words(one), amount_words(other));
        [one[0], one[1], other[0], other[1]]
    };
    match reason {
        Reason::SameTip(hash) => (1, hash_words(hash)),
        Reason::Neither => (2, [0; 4]),
        Reason::PeerOnly(work) => (3, both(work, 0)),
        Reason::LocalOnly(work) => (4, both(work, 0)),
        Reason::PeerWork(one, other) => (5, both(one, other)),
        Reason::LocalWork(one, other) => (6, both(one, other)),
        Reason::PeerTip(one, other) => (7, [one, other, 0, 0]),
        Reason::LocalTip(one, other) => (8, [one, other, 0, 0]),
        Reason::PeerHash => (9, [0; 4]),
        Reason::LocalHash => (10, [0; 4]),
        Reason::OffSpine => (11, [0; 4]),
        Reason::Competing => (12, [0; 4]),
        Reason::Stale => (13, [0; 4]),
    }
}

fn reason_of(kind: u64, words: &[u64]) -> Option<Reason> {
    let (one, other) = (amount_of(&words[..2]), amount_of(&words[2..]));
    Some(match kind {
        0 => return None,
        1 => Reason::SameTip(hash_of(words)),
        2 => Reason::Neither,
        3 => Reason::PeerOnly(one),
        4 => Reason::LocalOnly(one),
        5 => Reason::PeerWork(one, other),
        6 => Reason::LocalWork(one, other),
        7 => Reason::PeerTip(words[0], words[1]),
        8 => Reason::LocalTip(words[0], words[1]),
        9 => Reason::PeerHash,
        10 => Reason::LocalHash,
        11 => Reason::OffSpine,
        12 => Reason::Competing,
        _ => Reason::Stale,
    })
}

/// The twelve words of a copy.
pub fn copy_words(marks: &Marks) -> CopyWords {
    let mut words = [0; 12];
    let other = u64::from(marks.other.is_some());
    words[0] = 1 + u64::from(marks.orphaned) + 2 * u64::from(marks.canonical) + 4 * other;
    words[1..3].copy_from_slice(&time_words(marks.time));
    if let Some(reason) = marks.reason {
        let (kind, numbers) = reason_words(reason);
        words[3] = kind;
        words[4..8].copy_from_slice(&numbers);
    }
    if let Some(other) = marks.other {
        words[8..].copy_from_slice(&hash_words(other));
    }
    words
}

/// What twelve words of a copy mean. A state of 0 has none of what the other
/// words say.
pub fn copy_of(words: &CopyWords) -> Marks {
    if words[0] == 0 {
        return Marks::default();
    }
    let flags = words[0] - 1;
    Marks {
        orphaned: flags & 1 > 0,
        canonical: flags & 2 > 0,
        time: time_of(words[1], words[2]),
        reason: reason_of(words[3], &words[4..8]),
        other: (flags & 4 > 0).then(|| hash_of(&words[8..12])),
    }
}

/// What the words mean that a question for a block wrote.
pub fn shown_of(words: &ShownWords) -> Option<Block<Amount>> {
    let header = &words[1..17];
    (words[0] == 1).then(|| Block {
        hash: hash_of(&header[..4]),
        prev: hash_of(&header[4..8]),
        index: header[8],
        epoch: header[9],
        target: reading_of(header[10], &header[12..14]),
        actual: reading_of(header[11], &header[14..16]),
        marks: copy_of(&std::array::from_fn(|at| words[17 + at])),
    })
}

/// The words of a side; its hash crosses as bytes.
pub fn side_words(side: &Side<u128>) -> SideWords {
    let [low, high] = amount_words(side.work.unwrap_or(0));
    [u64::from(side.work.is_some()), low, high, side.index]
}

/// What the words mean that a comparison wrote.
pub fn choice_of(words: &ChoiceWords) -> (Choice, Reason) {
    let choice = match words[0] {
        0 => Choice::Equal,
        1 => Choice::Local,
        _ => Choice::Remote,
    };
    (choice, promised(reason_of(words[1], &words[2..])))
}

/// The sixteen words of an entry.
pub fn entry_words(entry: &Entry) -> EntryWords {
    let mut words = [0; 16];
    words[..4].copy_from_slice(&hash_words(entry.hash));
    words[4..].copy_from_slice(&copy_words(&entry.marks));
    words
}

/// What sixteen words of an entry mean.
pub fn entry_of(words: &EntryWords) -> Entry {
    Entry { hash: hash_of(&words[..4]), marks: copy_of(&std::array::from_fn(|at| words[4 + at])) }
}
