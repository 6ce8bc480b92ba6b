//! Every refusal of the holdings' calls, with the numbers that document 01
//! gives, written by hand. The guarded library looks at memory and guards.
use crate::common::{expect, with_library};
use crate::guarded::{Library, Memory};
use history::{Block, Call, Hash, Marks};

fn block(name: u8, index: u64) -> Block<String> {
    let one = || "1".to_string();
    let (hash, prev) = (Hash([name; 32]), Hash([0; 32]));
    Block { hash, index, epoch: 0, prev, target: one(), actual: one(), marks: Marks::default() }
}

fn started(line: &str) -> Memory {
    let mut library = Library::default();
    assert_eq!(library.call(&Call::read(line).unwrap()).to_string(), "0");
    library.memory.unwrap()
}

/// 2 KIND comes first in a put and a removal, and after 7 in a load.
#[test]
fn every_other_store_is_refused_with_2() {
    if !with_library() {
        return;
    }
    let mut memory = started("start 2 4 1 0");
    let above = [256, 257, 258, 1 << 32, (1 << 32) + 1, 1 << 63, u64::MAX - 1, u64::MAX];
    for store in (3..=255).chain(above) {
        for index in [0, u64::MAX] {
            assert_eq!(memory.load(store, &block(1, index)), 2, "load {store}");
            assert_eq!(memory.put(store, &block(1, index)), 2, "put {store}");
        }
        assert_eq!(memory.remove(store, Hash([1; 32])), 2, "remove {store}");
    }
    assert_eq!(memory.put(2, &block(1, 0)), 0);
    for store in (3..=255).chain(above) {
        assert_eq!(memory.load(store, &block(1, u64::MAX)), 7, "load {store} after loading closed");
        assert_eq!(memory.put(store, &block(1, 5)), 2, "put {store} with another header");
        assert_eq!(memory.remove(store, Hash([1; 32])), 2, "remove {store} of a hash that is held");
    }
}

#[test]
fn load_in_order_7_2_3_4_5() {
    expect(
        r#"
        start 1 9 1 0 => 0
        load 3 a 18446744073709551615 0 0 "1" "1" - - - - => 2
        load 2 a 18446744073709551615 0 0 "1" "1" - - - - => 3
        load 2 a 18446744073709551614 0 0 "1" "1" - - - - => 0
        load 2 a 18446744073709551615 0 0 "1" "1" - - - - => 3
        load 2 a 5 0 0 "1" "1" - - - - => 4
        load 3 a 5 0 0 "1" "1" - - - - => 2
        load 0 b 18446744073709551615 0 0 "1" "1" - - - - => 3
        load 0 b 5 0 0 "1" "1" - - - - => 5
        version => 0 0
        put 0 a 18446744073709551614 0 0 "1" "1" - - - - => 0
        load 3 a 18446744073709551615 0 0 "1" "1" - - - - => 7
        load 0 b 5 0 0 "1" "1" - - - - => 7
        load 2 a 18446744073709551614 0 0 "1" "1" - - - - => 7
        reload 2 0 => 0
        load 0 b 5 0 0 "1" "1" - - - - => 0
        "#,
    );
}

#[test]
fn put_in_order_2_3_4_5_6() {
    expect(
        r#"
        start 1 9 1 18446744073709551614 => 0
        put 3 a 18446744073709551615 0 0 "1" "1" - - - - => 2
        put 0 a 18446744073709551615 0 0 "1" "1" - - - - => 3
        put 0 a 0 0 0 "1" "1" - - - - => 0
        version => 0 18446744073709551615
        put 255 a 0 1 0 "1" "1" - - - - => 2
        put 0 a 18446744073709551615 0 0 "1" "1" - - - - => 3
        put 0 a 0 1 0 "1" "1" - - - - => 4
        put 0 b 0 0 0 "1" "1" - - - - => 5
        put 0 a 0 0 0 "1" "1" c - - - => 6
        put 1 a 0 0 0 "1" "1" - - - - => 6
        count => 0 1
        effective a => 0 a 0 0 0 0x1 0x1 - - - -
        "#,
    );
}

/// Each field of the header, and amounts by their value; also once the last
/// copy is gone, since the hash keeps its room.
#[test]
fn another_header_is_refused_with_4() {
    expect(
        r#"
        start 2 9 1 0 => 0
        put 0 a 3 2 b "7" "x" - - - - => 0
        put 1 a 4 2 b "7" "x" - - - - => 4
        put 1 a 3 1 b "7" "x" - - - - => 4
        put 1 a 3 2 c "7" "x" - - - - => 4
        put 1 a 3 2 b "8" "x" - - - - => 4
        put 1 a 3 2 b "" "x" - - - - => 4
        put 1 a 3 2 b "7" "7" - - - - => 4
        put 1 a 3 2 b "007" "+" - - - - => 0
        remove 0 a => 0
        remove 1 a => 0
        effective a => 0 none
        put 0 a 3 2 b "8" "x" - - - - => 4
        put 0 a 3 2 b "+7" "" - - - - => 0
        effective a => 0 a 3 2 b 0x7 ? - - - -
        "#,
    );
}

#[test]
fn full_room_is_refused_with_5() {
    expect(
        r#"
        start 2 1 1 0 => 0
        load 0 a 0 0 0 "1" "1" - - - - => 0
        load 1 b 0 0 0 "1" "1" - - - - => 0
        load 2 c 0 0 0 "1" "1" - - - - => 5
        put 2 c 0 0 0 "1" "1" - - - - => 5
        remove 0 a => 0
        put 2 c 0 0 0 "1" "1" - - - - => 5
        count => 0 1
        reload 2 0 => 0
        put 2 c 0 0 0 "1" "1" - - - - => 0
        count => 0 1
        "#,
    );
}

#[test]
fn removal_in_order_2_6() {
    expect(
        r#"
        start 2 9 1 18446744073709551614 => 0
        remove 3 a => 2
        remove 0 a => 0
        load 0 a 0 0 0 "1" "1" - - - - => 0
        put 1 a 0 0 0 "1" "1" - - - - => 0
        remove 3 a => 2
        remove 0 a => 6
        remove 1 a => 6
        remove 2 a => 0
        remove 0 b => 0
        version => 0 18446744073709551615
        "#,
    );
}

#[test]
fn answer_in_order_10_9_11() {
    expect(
        r#"
        start 2 9 1 0 => 0
        answer a 3 => 10
        answer a 18446744073709551615 => 10
        answer a 2 => 9
        load 0 a 0 0 0 "1" "1" - - - - => 0
        load 0 b 0 0 0 "1" "1" - - - - => 0
        answer a 1 => 0
        answer a 2 => 0
        answer a 3 => 10
        answer a 0 => 11
        answer a 1 => 11
        answer a 2 => 0
        answer b 0 => 0
        answer b 2 => 11
        answer b 0 => 0
        "#,
    );
}

#[test]
fn reload_8_generation() {
    expect(
        r#"
        start 2 9 5 7 => 0
        put 0 a 0 0 0 "1" "1" - - - - => 0
        reload 5 0 => 8
        reload 4 0 => 8
        count => 0 1
        reload 6 18446744073709551615 => 0
        count => 0 0
        put 0 a 0 0 0 "1" "1" - - - - => 6
        load 0 a 0 0 0 "1" "1" - - - - => 0
        reload 18446744073709551615 0 => 0
        reload 18446744073709551615 0 => 8
        generation => 0 18446744073709551615
        "#,
    );
}
