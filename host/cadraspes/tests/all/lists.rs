//! 13 LIST: changes, leaves and plans with lists that are too short, just long
//! enough and longer.
use crate::bad_memory::forked;
use crate::common::{expect, with_library};
use crate::guarded::{AskPlan, Library, PLACE};
use cadraspes::boundary;
use cadraspes::words::entry_of;
use history::{Call, Terms};

#[test]
fn changes_need_what_they_hold() {
    expect(
        r#"
        start 9 3 4 10 => 0
        changes 4 10 => 0 0
        changes 4 9 => 0 none
        changes 4 11 => 0 none
        changes 3 10 => 0 none
        put 0 a 0 0 0 "1" "1" - - - - => 0
        put 0 b 0 0 0 "1" "1" - - - - => 0
        put 1 a 0 0 0 "1" "1" - - - - => 0
        changes 4 10 => 0 2 | b | a
        changes 4 11 => 0 2 | b | a
        changes 4 12 => 0 1 | a
        lend 1 => 0
        changes 4 10 => 13
        changes 4 12 => 0 1 | a
        changes 4 13 => 0 0
        lend 0 => 0
        changes 4 12 => 13
        changes 4 13 => 0 0
        changes 4 14 => 0 none
        changes 5 12 => 0 none
        lend 2 => 0
        changes 4 10 => 0 2 | b | a
        put 0 c 0 0 0 "1" "1" - - - - => 0
        changes 4 10 => 0 none
        changes 4 11 => 13
        lend 3 => 0
        changes 4 11 => 0 3 | b | a | c
        "#,
    );
}

/// Every length in bytes around what is needed: a part of a place is no place.
#[test]
fn lists_of_every_length() {
    if !with_library() {
        return;
    }
    let mut library = Library::default();
    let calls = ["start 4 9 1 0", "put 0 a 0 0 0 \"1\" \"1\" - - - -", "put 0 b 0 0 0 \"1\" \"1\" - - - -"];
    for call in calls {
        assert_eq!(library.call(&Call::read(call).unwrap()).to_string(), "0");
    }
    let memory = library.memory.unwrap();
    for bytes in 0..=130 {
        let (asked, list) = memory.changes(1, 0, bytes);
        if bytes < 64 {
            assert_eq!(asked.number, 13, "{bytes} bytes");
            continue;
        }
        assert_eq!((asked.number, &asked.words[..]), (0, &[1, 2][..]), "{bytes} bytes");
        assert_eq!((list[31], list[63]), (0xa, 0xb));
        assert!(list[..31].iter().chain(&list[32..63]).all(|byte| *byte == 0));
        assert!(list[64..].iter().all(|byte| *byte == PLACE.0[0]), "{bytes} bytes: the rest stays");
    }
    let (asked, list) = memory.changes(2, 0, 40);
    assert_eq!((asked.number, &asked.words[..]), (0, &[0, 0][..]), "none to be had");
    assert!(list.iter().all(|byte| *byte == PLACE.0[0]));
}

/// Two leaves, 2 and 5, and lists of every length in bytes around them.
#[test]
fn leaves_in_lists_of_every_length() {
    if !with_library() {
        return;
    }
    let mut memory = forked();
    for bytes in 0..=130 {
        let (asked, list) = memory.leaves(bytes);
        if bytes < 64 {
            assert_eq!(asked.number, 13, "{bytes} bytes");
            continue;
        }
        assert_eq!((asked.number, &asked.words[..]), (0, &[1, 2][..]), "{bytes} bytes");
        assert_eq!((list[31], list[63]), (2, 5));
        assert!(list[..31].iter().chain(&list[32..63]).all(|byte| *byte == 0));
        assert!(list[64..].iter().all(|byte| *byte == PLACE.0[0]), "{bytes} bytes: the rest stays");
    }
}

/// Five entries, but six live blocks: one place fewer than six is too short,
/// for a plan that scans too. (The guarded library looks at the places past the
/// entries.)
#[test]
fn plans_in_lists_of_every_length() {
    if !with_library() {
        return;
    }
    let (mut memory, terms) = (forked(), Terms { floor: None, n: 1, clock: 7 });
    let plans: [(AskPlan, u64); 2] = [(boundary::select, 1), (boundary::adopt, 3)];
    for (plan, changed) in plans {
        for places in 0..=20 {
            let (asked, entries) = memory.plan(plan, &terms, places);
            if places < 6 {
                assert_eq!(asked.number, 13, "{places} places");
                continue;
            }
            assert_eq!((asked.number, &asked.words[..]), (0, &[1, changed, 5][..]), "{places} places");
            let last: Vec<u8> = entries[..5].iter().map(|entry| entry_of(entry).hash.0[31]).collect();
            assert_eq!(last, [1, 3, 2, 4, 5], "by index, then hash");
        }
    }
    assert_eq!(memory.call(|mem| boundary::reload(mem, 2, 0)), 0);
    for places in 0..3 {
        assert_eq!(memory.plan(boundary::adopt, &terms, places).0.number, 12, "12 before 13");
    }
    assert_eq!(memory.call(boundary::sync), 0);
    assert_eq!(memory.plan(boundary::adopt, &terms, 0).0.words, [0; 3], "a scan of no block needs no place");
}
