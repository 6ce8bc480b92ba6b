//! The comparison of two chains over the boundary: document 01's outcomes with
//! their numbers, the words as they cross, and covering at both ends.
use crate::common::{expect, with_library, Rng};
use cadraspes::{boundary, covers, Hash};
use history::{Block, Marks};

/// One of each reason, in document 01's order, and what comes before what.
#[test]
fn every_outcome() {
    expect(
        r#"
        start 1 1 1 0 => 0
        choose "5" 9 a "7" 3 a => 0 equal same-tip:a
        choose ? 9 b ? 3 a => 0 local neither
        choose ? 9 a "0" 3 b => 0 remote peer-only:0x0
        choose "18446744073709551616" 0 b "x" 9 a => 0 local local-only:0x10000000000000000
        choose "18446744073709551615" 9 a "18446744073709551616" 3 b => 0 remote peer-work:0x10000000000000000:0xffffffffffffffff
        choose "36893488147419103232" 3 b "18446744073709551617" 9 a => 0 local local-work:0x20000000000000000:0x10000000000000001
        choose "5" 3 a "+05" 4 b => 0 remote peer-tip:4:3
        choose "5" 18446744073709551615 b "5" 4 a => 0 local local-tip:18446744073709551615:4
        choose "5" 4 b "5" 4 a => 0 remote peer-hash
        choose "5" 4 a "5" 4 b => 0 local local-hash
        choose "5" 4 10000000000000000 "5" 4 ffffffffffffffff => 0 remote peer-hash
        choose ? 0 ff00000000000000000000000000000000000000000000000000000000000001 ? 1 ff00000000000000000000000000000000000000000000000000000000000001 => 0 equal same-tip:ff00000000000000000000000000000000000000000000000000000000000001
        "#,
    );
}

/// Six words are written, and nothing is taken for known work but the kind 1.
#[test]
fn words_as_they_cross() {
    if !with_library() {
        return;
    }
    let (a, b) = ([1; 32], [2; 32]);
    let told = |local: [u64; 4], peer: [u64; 4]| {
        let mut out = [u64::MAX; 6];
        assert_eq!(boundary::choose(&local, &a, &peer, &b, &mut out), 0);
        out
    };
    assert_eq!(told([1, 5, 6, 0], [1, 7, 6, 0]), [2, 5, 7, 6, 5, 6]);
    assert_eq!(told([1, 5, 6, 0], [1, 5, 5, 0]), [1, 6, 5, 6, 5, 5]);
    assert_eq!(told([1, 5, 6, 8], [1, 5, 6, 9]), [2, 7, 9, 8, 0, 0]);
    assert_eq!(told([1, 5, 6, 8], [1, 5, 6, 8]), [1, 10, 0, 0, 0, 0]);
    for kind in [0, 2, 3, u64::MAX] {
        assert_eq!(told([kind, 9, 9, 9], [1, 5, 6, 0]), [2, 3, 5, 6, 0, 0]);
        assert_eq!(told([1, 5, 6, 0], [kind, 9, 9, 9]), [1, 4, 5, 6, 0, 0]);
        assert_eq!(told([kind, 9, 9, 9], [kind, 9, 9, 9]), [1, 2, 0, 0, 0, 0]);
    }
    let mut out = [u64::MAX; 6];
    assert_eq!(boundary::choose(&[0; 4], &b, &[1; 4], &b, &mut out), 0);
    assert_eq!(out, [0, 1, 0x0202_0202_0202_0202, 0x0202_0202_0202_0202, 0x0202_0202_0202_0202, 0x0202_0202_0202_0202]);
}

/// Document 01's two sides of the line, and its saturation.
#[test]
fn covering() {
    if !with_library() {
        return;
    }
    let top = u64::MAX;
    let cases = [
        ((9, 2, 10), true),
        ((8, 2, 10), false),
        ((0, 1, top), true),
        ((0, top, 0), true),
        ((19, 3, 10), true),
        ((18, 3, 10), false),
        ((top, top, top), true),
        ((top - 1, top, top), true),
        ((top - 2, top, top), false),
        ((top - 2, 2, top), false),
        ((top - 1, 2, top), true),
    ];
    for ((index, epoch, n), expected) in cases {
        assert_eq!(covers(index, epoch, n), expected, "{index} {epoch} {n}");
    }
}

#[test]
fn covering_as_document_01_is_read() {
    if !with_library() {
        return;
    }
    let (mut rng, mut counts) = (Rng(10), [0; 2]);
    for _ in 0..200_000 {
        let shift = rng.pick(&[61, 58, 32, 1, 0]);
        let [epoch, n] = [0; 2].map(|_| rng.next() >> rng.pick(&[62, 60, shift, shift]));
        let near = epoch.saturating_sub(1).saturating_mul(n).saturating_add(rng.below(3)).saturating_sub(2);
        let far = rng.next() >> shift;
        let index = rng.pick(&[near, near, near, far]);
        let (hash, marks) = (Hash([0; 32]), Marks::default());
        let block = Block { hash, index, epoch, prev: hash, target: None, actual: None, marks };
        let expected = reading::covers(&block, n);
        assert_eq!(boundary::covers(index, epoch, n), u64::from(expected), "{index} {epoch} {n}");
        counts[usize::from(expected)] += 1;
    }
    assert!(counts.iter().all(|count| *count > 10_000), "{counts:?}");
}
