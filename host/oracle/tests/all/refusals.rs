//! Refusals, with the answers that document 01 gives, written by hand.
use crate::common::expect;

#[test]
fn start_1_room() {
    expect(
        r#"
        sync => ?
        start 0 1 1 0 => 1
        start 32769 1 1 0 => 1
        start 1 0 1 0 => 1
        start 1 200001 1 0 => 1
        start 18446744073709551615 18446744073709551615 1 0 => 1
        count => ?
        start 1 1 0 0 => 0
        count => 0 0
        start 32768 200000 3 0 => 0
        generation => 0 3
        start 0 200000 9 9 => 1
        generation => 0 3
        "#,
    );
}

#[test]
fn load_in_order_7_2_3_4_5() {
    expect(
        r#"
        start 1 9 1 0 => 0
        load 3 a 18446744073709551615 0 0 "1" "1" - - - - => 2
        load 2 a 18446744073709551615 0 0 "1" "1" - - - - => 3
        load 2 a 18446744073709551614 0 0 "1" "1" - - - - => 0
        load 2 a 18446744073709551615 0 0 "1" "1" - - - - => 3
        load 2 a 5 0 0 "1" "1" - - - - => 4
        load 3 a 5 0 0 "1" "1" - - - - => 2
        load 0 b 18446744073709551615 0 0 "1" "1" - - - - => 3
        load 0 b 5 0 0 "1" "1" - - - - => 5
        sync => 0
        load 3 a 18446744073709551615 0 0 "1" "1" - - - - => 7
        load 0 b 5 0 0 "1" "1" - - - - => 7
        load 2 a 18446744073709551614 0 0 "1" "1" - - - - => 7
        "#,
    );
}

#[test]
fn put_in_order_2_3_4_5_6() {
    expect(
        r#"
        start 1 9 1 18446744073709551614 => 0
        put 3 a 18446744073709551615 0 0 "1" "1" - - - - => 2
        put 0 a 18446744073709551615 0 0 "1" "1" - - - - => 3
        put 0 a 0 0 0 "1" "1" - - - - => 0
        version => 0 18446744073709551615
        put 255 a 0 1 0 "1" "1" - - - - => 2
        put 0 a 18446744073709551615 0 0 "1" "1" - - - - => 3
        put 0 a 0 1 0 "1" "1" - - - - => 4
        put 0 b 0 0 0 "1" "1" - - - - => 5
        put 0 a 0 0 0 "1" "1" c - - - => 6
        put 1 a 0 0 0 "1" "1" - - - - => 6
        count => 0 1
        effective a => 0 a 0 0 0 0x1 0x1 - - - -
        "#,
    );
}

#[test]
fn removal_in_order_2_6() {
    expect(
        r#"
        start 2 9 1 18446744073709551614 => 0
        remove 3 a => 2
        remove 0 a => 0
        load 0 a 0 0 0 "1" "1" - - - - => 0
        put 1 a 0 0 0 "1" "1" - - - - => 0
        remove 3 a => 2
        remove 0 a => 6
        remove 1 a => 6
        remove 2 a => 0
        remove 0 b => 0
        count => 0 1
        "#,
    );
}

#[test]
fn every_field_of_the_header_counts_and_nothing_else() {
    expect(
        r#"
        start 2 9 1 0 => 0
        put 0 a 1 2 3 "4" "x" c - - - => 0
        put 0 a 2 2 3 "4" "x" c - - - => 4
        put 0 a 1 3 3 "4" "x" c - - - => 4
        put 0 a 1 2 4 "4" "x" c - - - => 4
        put 0 a 1 2 3 "5" "x" c - - - => 4
        put 0 a 1 2 3 "x" "x" c - - - => 4
        put 0 a 1 2 3 "4" "4" c - - - => 4
        put 0 a 1 2 3 "0" "x" c - - - => 4
        put 1 a 1 2 3 "+004" "" o 5 stale b => 0
        put 0 a 1 2 3 "04" "340282366920938463463374607431768211456" - - - - => 0
        version => 0 3
        "#,
    );
}

#[test]
fn room_lasts_until_the_next_sync_and_is_used_again() {
    expect(
        r#"
        start 1 9 1 0 => 0
        put 0 a 0 0 0 "1" "1" - - - - => 0
        remove 0 a => 0
        put 0 b 0 0 0 "1" "1" - - - - => 5
        put 0 a 0 7 0 "1" "1" - - - - => 4
        answer a 1 => 0
        count => 0 0
        sync => 0
        answer a 1 => 9
        put 0 b 0 0 0 "1" "1" - - - - => 0
        put 0 a 0 7 0 "1" "1" - - - - => 5
        remove 0 b => 0
        sync => 0
        put 0 a 0 7 0 "1" "1" - - - - => 0
        put 0 a 0 0 0 "1" "1" - - - - => 4
        reload 2 0 => 0
        put 0 a 0 0 0 "1" "1" - - - - => 0
        "#,
    );
}

#[test]
fn answer_in_order_10_9_11() {
    expect(
        r#"
        start 2 9 1 0 => 0
        answer a 3 => 10
        answer a 18446744073709551615 => 10
        answer a 0 => 9
        answer a 2 => 9
        put 0 a 0 0 0 "1" "1" - - - - => 0
        answer a 3 => 10
        answer a 1 => 0
        answer a 1 => 0
        answer a 2 => 0
        answer a 2 => 0
        answer a 1 => 11
        answer a 0 => 11
        answer a 3 => 10
        put 0 b 0 0 0 "1" "1" - - - - => 0
        answer b 0 => 0
        answer b 0 => 0
        answer b 1 => 11
        answer b 2 => 11
        answer b 256 => 10
        "#,
    );
}

#[test]
fn reload_8_generation() {
    expect(
        r#"
        start 2 9 5 3 => 0
        load 0 a 0 0 0 "1" "1" - - - - => 0
        reload 5 0 => 8
        reload 4 0 => 8
        reload 0 0 => 8
        count => 0 1
        version => 0 3
        reload 6 18446744073709551615 => 0
        count => 0 0
        version => 0 18446744073709551615
        reload 6 0 => 8
        reload 18446744073709551615 0 => 0
        reload 18446744073709551615 0 => 8
        generation => 0 18446744073709551615
        "#,
    );
}

#[test]
fn questions_12_until_a_sync() {
    expect(
        r#"
        start 3 9 1 0 => 0
        node a => 12
        parent a => 12
        linked a => 12
        clinked a => 12
        best => 12
        cbest => 12
        leaves => 12
        ccount => 12
        live => 12
        select - 1 0 => 12
        adopt - 1 0 => 12
        effective a => 0 none
        count => 0 0
        generation => 0 1
        version => 0 0
        changes 1 0 => 0 0
        choose ? 0 a ? 0 a => 0 equal same-tip:a
        amount "1" => 0 0x1
        sync => 0
        best => 0 none
        load 0 a 0 0 0 "1" "1" - - - - => 7
        best => 0 none
        put 3 a 0 0 0 "1" "1" - - - - => 2
        remove 0 a => 0
        best => 0 none
        put 0 a 0 0 0 "1" "1" - - - - => 0
        best => 12
        sync => 0
        best => 0 a 0x1 ok
        answer a 1 => 0
        best => 0 a 0x1 ok
        remove 0 a => 0
        best => 12
        sync => 0
        best => 0 none
        reload 1 0 => 8
        best => 0 none
        reload 2 0 => 0
        best => 12
        load 0 a 0 0 0 "1" "1" - - - - => 0
        sync => 0
        best => 0 a 0x1 ok
        "#,
    );
}

#[test]
fn a_load_makes_questions_stale() {
    expect(
        r#"
        start 3 9 1 0 => 0
        load 0 a 0 0 0 "1" "1" - - - - => 0
        best => 12
        sync => 0
        best => 0 a 0x1 ok
        start 3 9 1 0 => 0
        best => 12
        "#,
    );
}

#[test]
fn lists_13_after_12() {
    expect(
        r#"
        start 3 9 1 0 => 0
        lend 0 => 0
        leaves => 12
        select - 1 0 => 12
        changes 1 0 => 0 0
        changes 2 0 => 0 none
        put 0 a 0 0 0 "1" "1" - - - - => 0
        put 0 b 1 0 a "1" "1" o - - - => 0
        leaves => 12
        adopt - 1 0 => 12
        changes 1 0 => 13
        changes 1 1 => 13
        changes 1 2 => 0 0
        sync => 0
        leaves => 13
        select - 1 0 => 13
        adopt - 1 0 => 13
        best => 0 a 0x1 ok
        reload 1 0 => 8
        leaves => 13
        lend 1 => 0
        leaves => 0 1 | a
        select - 1 0 => 0 scan
        adopt - 1 0 => 0 scan
        changes 1 0 => 13
        changes 1 1 => 0 1 | b
        start 0 1 1 1 => 1
        changes 1 0 => 13
        reload 2 0 => 0
        put 0 a 0 0 0 "1" "1" c - - - => 0
        put 0 b 0 0 0 "1" "1" - - - - => 0
        sync => 0
        leaves => 13
        select - 1 0 => 13
        lend 2 => 0
        select - 1 0 => 0 apply 0 0
        lend - => 0
        leaves => 0 2 | a | b
        start 3 9 1 0 => 0
        lend 0 => 0
        start 3 9 1 0 => 0
        put 0 a 0 0 0 "1" "1" - - - - => 0
        changes 1 0 => 0 1 | a
        "#,
    );
}
