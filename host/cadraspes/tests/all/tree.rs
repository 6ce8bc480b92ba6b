//! Sync and the questions about the tree, with the numbers and answers that
//! document 01 gives, written by hand.
use crate::common::expect;

/// Each of the nine questions.
const STALE: &str = "
        node a => 12
        parent a => 12
        linked a => 12
        clinked a => 12
        best => 12
        cbest => 12
        ccount => 12
        live => 12
        leaves => 12
";

/// 12 STALE from the start to the first sync, and again after each accepted
/// load, put, effective removal and reload; not after anything else.
#[test]
fn questions_are_stale_until_a_sync() {
    let fresh = "live => 0 1\n leaves => 0 1 | a\n";
    expect(&format!(
        r#"
        start 2 9 1 0 => 0
        {STALE}
        load 0 a 0 0 0 "5" "5" c - - - => 0
        {STALE}
        answer a 0 => 0
        load 3 a 0 0 0 "5" "5" c - - - => 2
        {STALE}
        sync => 0
        {fresh}
        load 0 b 0 0 0 "5" "5" c - - - => 7
        put 3 b 0 0 0 "5" "5" c - - - => 2
        put 1 a 1 0 0 "5" "5" c - - - => 4
        remove 1 a => 0
        remove 0 b => 0
        remove 3 a => 2
        answer a 0 => 0
        answer a 2 => 11
        reload 1 0 => 8
        effective a => 0 a 0 0 0 0x5 0x5 c - - -
        changes 1 0 => 0 0
        {fresh}
        put 1 a 0 0 0 "5" "5" o - - - => 0
        {STALE}
        sync => 0
        {fresh}
        remove 1 a => 0
        {STALE}
        sync => 0
        {fresh}
        sync => 0
        {fresh}
        reload 2 0 => 0
        {STALE}
        load 0 a 0 0 0 "5" "5" c - - - => 0
        {STALE}
        sync => 0
        {fresh}
        reload 3 0 => 0
        {STALE}
        sync => 0
        live => 0 0
        leaves => 0 0
        best => 0 none
        put 3 a 0 0 0 "5" "5" - - - - => 2
        live => 0 0
        "#
    ));
}

/// Document 01's small table: genesis and two children, one of which misses
/// its target.
#[test]
fn the_small_table() {
    expect(
        r#"
        start 8 16 1 0 => 0
        load 0 f 0 0 0 "5" "5" c - - - => 0
        put 0 a 1 0 f "3" "3" - - - - => 0
        put 0 b 1 0 f "4" "3" - - - - => 0
        sync => 0
        linked f => 0 0x5 ok
        linked a => 0 0x8 ok
        linked b => 0 0x8 no
        clinked f => 0 0x5 ok
        clinked a => 0 none
        leaves => 0 2 | a | b
        best => 0 a 0x8 ok
        cbest => 0 f 0x5 ok
        live => 0 3
        ccount => 0 1
        node b => 0 b 1 0 f 0x4 0x3 - - - -
        parent b => 0 f 0 0 0 0x5 0x5 c - - -
        parent f => 0 none
        node 77 => 0 none
        linked 77 => 0 none
        "#,
    );
}

/// Work of two words, and a sum past 128 bits.
#[test]
fn work_goes_up_to_128_bits() {
    expect(
        r#"
        start 8 16 1 0 => 0
        put 0 a 0 0 0 "1" "18446744073709551616" c - - - => 0
        put 0 b 1 0 a "1" "340282366920938463444927863358058659839" c - - - => 0
        put 0 c 2 0 b "1" "1" c - - - => 0
        put 0 d 2 0 b "1" "0" c - - - => 0
        sync => 0
        linked a => 0 0x10000000000000000 ok
        linked b => 0 0xffffffffffffffffffffffffffffffff ok
        linked c => 0 none
        clinked c => 0 none
        linked d => 0 0xffffffffffffffffffffffffffffffff no
        best => 0 d 0xffffffffffffffffffffffffffffffff no
        leaves => 0 1 | d
        "#,
    );
}

/// 13 LIST after 12, and a list of just the length needed.
#[test]
fn leaves_need_what_they_hold() {
    expect(
        r#"
        start 8 16 1 0 => 0
        lend 0 => 0
        leaves => 12
        sync => 0
        leaves => 0 0
        load 0 a 0 0 0 "1" "1" - - - - => 7
        put 0 c 0 0 0 "1" "1" - - - - => 0
        put 0 a 0 0 0 "1" "1" - - - - => 0
        put 0 b 0 0 0 "1" "1" - - - - => 0
        leaves => 12
        sync => 0
        leaves => 13
        lend 2 => 0
        leaves => 13
        lend 3 => 0
        leaves => 0 3 | a | b | c
        leaves => 0 3 | a | b | c
        lend 4 => 0
        leaves => 0 3 | a | b | c
        best => 0 a 0x1 ok
        "#,
    );
}

/// A sync frees room; an answer seen too late is not seen; freed room forgets
/// the answer and takes any header.
#[test]
fn room_and_answers_around_a_sync() {
    expect(
        r#"
        start 2 16 1 0 => 0
        put 0 a 0 0 0 "1" "1" - - - - => 0
        put 0 b 1 0 a "1" "1" - - - - => 0
        sync => 0
        answer b 2 => 0
        sync => 0
        linked b => 0 0x2 ok
        remove 0 b => 0
        put 0 c 1 0 a "1" "7" - - - - => 5
        put 0 b 1 0 a "1" "9" - - - - => 4
        sync => 0
        put 0 b 1 0 a "1" "9" - - - - => 0
        put 0 c 1 0 a "1" "7" - - - - => 5
        sync => 0
        linked b => 0 0xa ok
        best => 0 b 0xa ok
        answer b 2 => 0
        put 1 b 1 0 a "1" "9" - - - - => 0
        sync => 0
        linked b => 0 none
        best => 0 a 0x1 ok
        leaves => 0 1 | a
        "#,
    );
}
