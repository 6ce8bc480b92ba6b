//! Rooms and trees that no answer shows: places, and the tree from scratch.
use history::{Call, Hash};
use reading::{Reading, Replay};

fn after(calls: &[&str]) -> Reading {
    let mut replay = Replay::default();
    for call in calls {
        assert_eq!(replay.line(call.as_bytes()).unwrap().to_string(), "0", "{call}");
    }
    replay.0.unwrap()
}

fn places(reading: &Reading) -> Vec<(String, u64)> {
    reading.holding.rooms.iter().map(|(hash, room)| (hash.to_string(), room.place)).collect()
}

fn named(list: &[(&str, u64)]) -> Vec<(String, u64)> {
    list.iter().map(|(name, place)| (name.to_string(), *place)).collect()
}

const BLOCK: &str = "0 0 0 \"1\" \"1\" - - - -";

#[test]
fn new_room_takes_the_lowest_free_place() {
    let put = |name: &str| format!("put 0 {name} {BLOCK}");
    let (c, b, a, d) = (put("c"), put("b"), put("a"), put("d"));
    let mut calls = vec!["start 4 9 1 0", &c, &b, &a];
    assert_eq!(places(&after(&calls)), named(&[("a", 2), ("b", 1), ("c", 0)]));
    calls.extend(["remove 0 c", "remove 0 b"]);
    assert_eq!(places(&after(&calls)), named(&[("a", 2), ("b", 1), ("c", 0)]), "until the sync");
    calls.extend(["sync", &d]);
    assert_eq!(places(&after(&calls)), named(&[("a", 2), ("d", 0)]));
    calls.push(&b);
    assert_eq!(places(&after(&calls)), named(&[("a", 2), ("b", 1), ("d", 0)]));
}

#[test]
fn a_late_answer_shows_from_scratch_first() {
    let mut reading = after(&[
        "start 4 9 1 0",
        "put 0 a 0 0 0 \"1\" \"1\" - - - -",
        "put 0 b 1 0 a \"1\" \"1\" - - - -",
        "sync",
        "answer b 2",
        "sync",
    ]);
    let b = Hash::read("b").unwrap();
    assert!(reading.view.linked.contains_key(&b));
    assert!(!reading.from_scratch().linked.contains_key(&b));
    reading.call(&Call::read("put 0 b 1 0 a \"1\" \"1\" - - - -").unwrap()).unwrap();
    reading.call(&Call::Sync).unwrap();
    assert_eq!(reading.view, reading.from_scratch());
}

#[test]
fn what_makes_the_next_sync_rebuild() {
    let put = format!("put 0 a {BLOCK}");
    assert!(after(&["start 4 1 1 0"]).rebuilds());
    assert!(!after(&["start 4 1 1 0", "sync"]).rebuilds());
    assert!(!after(&["start 4 1 1 0", "sync", &put]).rebuilds());
    assert!(after(&["start 4 1 1 0", "sync", &put, &put]).rebuilds());
    assert!(after(&["start 4 1 1 0", "sync", "reload 2 0"]).rebuilds());
}
