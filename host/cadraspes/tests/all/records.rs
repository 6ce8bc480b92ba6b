//! Records over the boundary: whatever goes in comes out as it was, and words
//! that no host would write still mean something.
use crate::common::{expect, with_library};
use crate::guarded::Library;
use cadraspes::boundary::{self, Record};
use cadraspes::words::{copy_of, copy_words, shown_of};
use cadraspes::{Block, Hash, Marks, Reason, Tree};
use history::Call;

const TOP: u128 = u128::MAX;

fn reasons() -> Vec<Option<Reason>> {
    let hash = Hash(std::array::from_fn(|at| 200u8.wrapping_add(7 * at as u8)));
    let all = [
        Reason::SameTip(hash),
        Reason::Neither,
        Reason::PeerOnly(TOP),
        Reason::LocalOnly(1 << 64),
        Reason::PeerWork(TOP - 1, 3),
        Reason::LocalWork(4, (1 << 64) - 1),
        Reason::PeerTip(u64::MAX, 0),
        Reason::LocalTip(1, u64::MAX),
        Reason::PeerHash,
        Reason::LocalHash,
        Reason::OffSpine,
        Reason::Competing,
        Reason::Stale,
    ];
    all.into_iter().map(Some).chain([None]).collect()
}

fn all_marks() -> Vec<Marks> {
    let times = [None, Some(0), Some(-1), Some(1), Some(i64::MAX), Some(i64::MIN), Some(i64::MIN + 1)];
    let others = [None, Some(Hash([0; 32])), Some(Hash([255; 32])), Some(Hash(std::array::from_fn(|at| at as u8)))];
    let mut all = Vec::new();
    for (at, reason) in reasons().into_iter().enumerate() {
        for (on, time) in times.into_iter().enumerate() {
            for (of, other) in others.into_iter().enumerate() {
                let (orphaned, canonical) = ((at + on) % 2 == 0, (at + of) % 2 == 0);
                all.push(Marks { orphaned, canonical, time, reason, other });
            }
        }
    }
    all
}

#[test]
fn a_copys_words_are_told_back() {
    for marks in all_marks() {
        assert_eq!(copy_of(&copy_words(&marks)), marks);
    }
}

#[test]
fn what_is_put_is_effective() {
    if !with_library() {
        return;
    }
    let hash = Hash(std::array::from_fn(|at| 255 - 3 * at as u8));
    let prev = Hash(std::array::from_fn(|at| (at as u8).wrapping_mul(17)));
    let mut tree = Tree::new(1, 1, 1, 0).unwrap();
    for marks in all_marks() {
        let (target, actual) = (TOP.to_string(), "1,000".to_string());
        let block = Block { hash, index: u64::MAX - 1, epoch: u64::MAX, prev, target, actual, marks };
        tree.put(0, &block).unwrap();
        let Block { hash, index, epoch, prev, .. } = block;
        let shown = Block { hash, index, epoch, prev, target: Some(TOP), actual: None, marks };
        assert_eq!(tree.effective(hash), Some(shown));
    }
}

/// Texts of document 01's table and their like, and a long one.
#[test]
fn amounts_are_read_as_rust_reads_them() {
    if !with_library() {
        return;
    }
    let top = TOP.to_string();
    let long = format!("+{}{top}", "0".repeat(100_000));
    let one_more = "340282366920938463463374607431768211456";
    let texts =
        ["", "+7", "007", "-0", "+", "++7", "7 ", "0", "18446744073709551616", &top, one_more, &long, "٣", "7\0"];
    for text in texts {
        assert_eq!(Tree::amount(text), text.parse::<u128>().ok(), "{text:.50}");
    }
    assert_eq!((Tree::amount("+7"), Tree::amount("-0")), (Some(7), None));
}

#[test]
fn histories_show_the_effective_copy() {
    expect(
        r#"
        start 3 9 1 0 => 0
        effective a => 0 none
        load 2 a 1 2 b "+09" "" c - - - => 0
        effective a => 0 a 1 2 b 0x9 ? c - - -
        put 1 a 1 2 b "9" "-" o -5 peer-work:0x5:0x4 c => 0
        effective a => 0 a 1 2 b 0x9 ? o -5 peer-work:0x5:0x4 c
        put 0 a 1 2 b "9" "-" - 9223372036854775807 same-tip:ff - => 0
        effective a => 0 a 1 2 b 0x9 ? - 9223372036854775807 same-tip:ff -
        remove 0 a => 0
        effective a => 0 a 1 2 b 0x9 ? o -5 peer-work:0x5:0x4 c
        remove 1 a => 0
        effective a => 0 a 1 2 b 0x9 ? c - - -
        count => 0 1
        remove 2 a => 0
        effective a => 0 none
        count => 0 0
        amount "340282366920938463463374607431768211455" => 0 0xffffffffffffffffffffffffffffffff
        amount "340282366920938463463374607431768211456" => 0 ?
        "#,
    );
}

/// Twelve zeros are a plain copy; a kind past the last is the last; a state
/// word says no more than its three bits.
#[test]
fn any_words_are_a_copy() {
    if !with_library() {
        return;
    }
    let mut library = Library::default();
    assert_eq!(library.call(&Call::read("start 1 1 1 0").unwrap()).to_string(), "0");
    let mut memory = library.memory.unwrap();
    let hash = Hash([9; 32]);
    let mut shown = |copy: [u64; 12]| {
        let (target, actual): (&[u8], &[u8]) = (b"1", b"1");
        let record = Record { hash: &hash.0, index: 0, epoch: 0, prev: &hash.0, target, actual, copy: &copy };
        assert_eq!(memory.call(|mem| boundary::put(mem, 0, &record)), 0);
        let asked = memory.effective(hash);
        assert_eq!(asked.number, 0);
        shown_of(asked.words[..].try_into().unwrap()).expect("a copy was put").marks
    };
    assert_eq!(shown([0; 12]), Marks::default());
    let none = [0, 1, 7, 13, 5, 5, 5, 5, 5, 5, 5, 5];
    assert_eq!((shown(none), copy_of(&none)), (Marks::default(), Marks::default()));
    assert_eq!(shown([1; 12]), copy_of(&[1; 12]));
    let zero = Marks { reason: Some(Reason::Stale), ..Marks::default() };
    assert_eq!(shown([1, 0, 0, 14, 0, 0, 0, 0, 0, 0, 0, 0]), zero);
    assert_eq!(shown([1, 0, 0, u64::MAX, 5, 5, 5, 5, 5, 5, 5, 5]), zero);
    let orphaned = Marks { orphaned: true, ..Marks::default() };
    assert_eq!(shown([10, 0, 0, 0, 0, 0, 0, 0, 0, 0, 0, 0]), orphaned);
    assert_eq!(shown([1, u64::MAX, u64::MAX, 0, 0, 0, 0, 0, 0, 0, 0, 0]).time, Some(i64::MIN));
}
