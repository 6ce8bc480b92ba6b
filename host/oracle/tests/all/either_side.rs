//! Document 01, "Either side of a line".
use crate::common::expect;

#[test]
fn amounts() {
    expect(
        r#"
        start 1 1 1 0 => 0
        amount "" => 0 ?
        amount "+7" => 0 0x7
        amount "007" => 0 0x7
        amount "-0" => 0 ?
        amount "+" => 0 ?
        amount "340282366920938463463374607431768211455" => 0 0xffffffffffffffffffffffffffffffff
        amount "340282366920938463463374607431768211456" => 0 ?
        "#,
    );
}

#[test]
fn genesis_and_its_children() {
    expect(
        r#"
        start 4 9 1 0 => 0
        put 0 1 0 0 0 "5" "5" - - - - => 0
        put 0 a 1 0 1 "3" "3" - - - - => 0
        put 0 b 1 0 1 "4" "3" - - - - => 0
        sync => 0
        linked a => 0 0x8 ok
        linked b => 0 0x8 no
        leaves => 0 2 | a | b
        best => 0 a 0x8 ok
        "#,
    );
}

/// A canonical line of blocks of work 2, from index 0 to `top`.
fn line(top: u64) -> String {
    let block = |index: u64| {
        let prev = if index == 0 { "0".to_string() } else { format!("a{}", index - 1) };
        format!("put 0 a{index} {index} 0 {prev} \"2\" \"2\" c - - - => 0\n")
    };
    "start 64 200000 1 0 => 0\n".to_string() + &(0..=top).map(block).collect::<String>()
}

#[test]
fn index_9_covers_epoch_2_of_10_and_8_does_not() {
    expect(&(line(7) + "put 0 b8 8 2 a7 \"2\" \"2\" - - - - => 0\nsync => 0\nadopt - 10 5 => 0 apply 0 0"));
    expect(
        &(line(8) + "put 0 b9 9 2 a8 \"2\" \"2\" - - - - => 0\nsync => 0\nadopt - 10 5 => 0 apply 1 1 | b9 c - - -"),
    );
}

#[test]
fn bottom_5_is_stale_under_25_and_6_is_not() {
    let forks = "put 0 b5 5 0 a4 \"1\" \"1\" - - - - => 0\nput 0 b6 6 0 a5 \"1\" \"1\" - - - - => 0\nsync => 0\n";
    expect(&(line(25) + forks + "adopt - 10 77 => 0 apply 0 1 | b5 o 77 stale -"));
}
