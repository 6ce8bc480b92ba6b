//! Drawings of the recorded histories. What is expected of single blocks is
//! document 01's and the recorded answers', written by hand.
use crate::common::with_library;
use crate::recorded::{folder, text};
use crate::table::Table;
use crate::xml;
use cadraspes::draw::{self, Played};

/// A recorded history, drawn after so many of its syncs; all if none is given.
fn drawn(name: &str, syncs: Option<usize>) -> String {
    let history = text(&folder().join(format!("{name}.txt")));
    let (mut played, mut left) = (Played::default(), syncs);
    for line in history::lines(&history) {
        if left == Some(0) {
            break;
        }
        played.line(line);
        left = left.map(|left| left - usize::from(line == b"sync"));
    }
    draw::text(&played.scene())
}

/// What is said of a block that is not linked.
fn why(table: &Table, hash: &str) -> String {
    let row = table.row(hash);
    assert_eq!(row.cell("linked"), "-", "{hash}");
    row.remarks.split("not linked: ").nth(1).unwrap_or_else(|| panic!("no reason for {hash}")).to_string()
}

fn leaves(table: &Table) -> Vec<&str> {
    table.0.iter().filter(|row| row.cell("leaf") == "leaf").map(|row| row.cell("hash")).collect()
}

/// Both works are 8 and proofs are ok for b1 only; best is the lower hash.
#[test]
fn the_first_history() {
    if !with_library() {
        return;
    }
    let drawn = drawn("first", None);
    let table = Table::of(&drawn);
    assert_eq!((table.with("<- BEST"), table.with("<- CANONICAL BEST")), (vec!["b1"], vec!["a"]));
    assert!(drawn.starts_with("3 held, 3 live, 1 canonical, leaves: 2\nbest: b1, work 0x8, proofs ok\n"), "{drawn}");
    assert_eq!(leaves(&table), ["b1", "b2"]);
    let linked = ["a", "b1", "b2"].map(|hash| table.row(hash).cell("linked"));
    assert_eq!(linked, ["0x5 ok", "0x8 ok", "0x8 no"]);
    let canonical = ["a", "b1", "b2"].map(|hash| (table.row(hash).cell("canonical"), table.row(hash).cell("clinked")));
    assert_eq!(canonical, [("c", "0x5 ok"), ("-", "-"), ("-", "-")]);
    let to = |hash: &str| Some((hash.to_string(), true));
    assert_eq!([table.led(0), table.led(1), table.led(2)], [to("a"), to("a"), None]);
}

/// One line over the whole, and what is held; no word of why.
#[test]
fn before_a_sync_nothing_is_worked_out() {
    if !with_library() {
        return;
    }
    let mut played = Played::default();
    let lines = text(&folder().join("first.txt"));
    assert_eq!(draw::text(&played.scene()), "no start was accepted: there is no tree yet\n");
    for line in history::lines(&lines).take_while(|line| *line != b"sync") {
        played.line(line);
    }
    let drawn = draw::text(&played.scene());
    assert!(drawn.starts_with("not worked out yet: no sync covers the present (12 STALE)\n3 held"), "{drawn}");
    let table = Table::of(&drawn);
    for hash in ["a", "b1", "b2"] {
        let row = table.row(hash);
        assert_eq!(["live", "linked", "clinked", "leaf"].map(|column| row.cell(column)), ["live", "?", "?", "?"]);
        assert_eq!(row.remarks, "");
    }
    assert_eq!(table.led(0), Some(("a".to_string(), false)));
    assert!(draw::svg(&played.scene()).contains(">not worked out yet: no sync covers the present (12 STALE)<"));
}

#[test]
fn sums_and_amounts() {
    if !with_library() {
        return;
    }
    let (sums, amounts) = (drawn("untidy/sum-past-128-bits", None), drawn("untidy/unreadable-amounts", None));
    let table = Table::of(&sums);
    assert_eq!((table.with("<- BEST"), table.with("<- CANONICAL BEST")), (vec!["d"], vec!["b"]));
    assert_eq!(why(&table, "c"), "the sum passes 128 bits");
    assert_eq!(why(&table, "e"), "the sum passes 128 bits");
    assert_eq!(why(&table, "f"), "parent c not linked");
    let table = Table::of(&amounts);
    assert_eq!(table.with("<- BEST"), ["e"]);
    assert_eq!(["b", "f"].map(|hash| why(&table, hash)), ["actual unreadable", "actual unreadable"]);
    let linked = ["a", "c", "d", "e"].map(|hash| table.row(hash).cell("linked"));
    assert_eq!(linked, ["0x5 ok", "0x6 no", "0x6 no", "0x7 no"]);
    assert_eq!(leaves(&table), ["e", "c"]);
}

#[test]
fn what_a_previous_hash_names() {
    if !with_library() {
        return;
    }
    let indexes = drawn("untidy/indexes-do-not-follow", None);
    let table = Table::of(&indexes);
    assert_eq!(why(&table, "b"), "named block a has another index, 0");
    assert_eq!(why(&table, "d"), "named block c has another index, 1");
    assert_eq!(why(&table, "e"), "named block c has another index, 1");
    assert_eq!(why(&table, "f"), "named block e has another index, 18446744073709551614");
    assert_eq!(table.with("<- BEST"), ["c"]);
    let [first, second] = [1, 2].map(|syncs| drawn("untidy/child-before-parent", Some(syncs)));
    assert!(first.starts_with("1 held, 1 live, 1 canonical, leaves: 0\nbest: none\ncanonical best: none\n"), "{first}");
    assert_eq!(why(&Table::of(&first), "c"), "parent b is not there");
    assert_eq!(why(&Table::of(&second), "c"), "parent b not linked");
    assert_eq!(why(&Table::of(&second), "b"), "parent a is not there");
    let last = drawn("untidy/child-before-parent", None);
    assert_eq!(Table::of(&last).with("<- BEST  <- CANONICAL BEST"), ["c"]);
}

/// A line still leads to an orphaned block, but not as to a parent.
#[test]
fn orphaned_parents() {
    if !with_library() {
        return;
    }
    let shadowed = drawn("untidy/orphaned-copy-shadows", Some(1));
    let table = Table::of(&shadowed);
    assert_eq!(table.row("a").cell("live"), "-");
    assert_eq!(why(&table, "a"), "orphaned (stale)");
    assert_eq!(why(&table, "b"), "parent a not live");
    assert_eq!(table.led(0), Some(("a".to_string(), false)));
    let gone = drawn("untidy/orphaned-copy-shadows", None);
    assert_eq!(why(&Table::of(&gone), "b"), "parent a is not there");
    let taken_down = drawn("untidy/parent-no-longer-live", Some(2));
    let table = Table::of(&taken_down);
    assert_eq!(["b", "c", "d"].map(|hash| why(&table, hash))[..2], ["orphaned (competing)", "parent b not live"]);
    assert_eq!((leaves(&table), table.row("b").cell("canonical")), (vec!["a"], "c"));
}

/// An ineligible answer unlinks a block once it is worked out anew, and no
/// canonical link.
#[test]
fn ineligible_answers() {
    if !with_library() {
        return;
    }
    let late = drawn("untidy/late-answer", Some(2));
    let table = Table::of(&late);
    assert_eq!(table.row("b").cell("linked"), "0x2 ok");
    assert_eq!(table.with("answered ineligible, not seen yet"), ["b"]);
    let seen = drawn("untidy/late-answer", None);
    assert_eq!(why(&Table::of(&seen), "b"), "answered ineligible");
    assert_eq!(Table::of(&seen).with("<- BEST"), ["a"]);
    let canonical = drawn("untidy/final-answer-given-again", None);
    let table = Table::of(&canonical);
    assert_eq!((why(&table, "a"), table.row("a").cell("clinked")), ("answered ineligible".to_string(), "0x1 ok"));
    assert!(table.with("<- BEST").is_empty() && table.row("a").remarks.contains("<- CANONICAL BEST"));
}

/// Hundreds of blocks: a long chain, and more beside each other than lines are
/// drawn for. The order in which they came does not show.
#[test]
fn many_blocks() {
    if !with_library() {
        return;
    }
    let chain = (1..300).map(|at| format!("put 0 {:x} {at} 0 {:x} \"1\" \"1\" c - - -", at + 1, at));
    let beside = (0..100).map(|at| format!("put 0 f{at:04x} 1 0 1 \"1\" \"1\" - - - -"));
    let mut lines: Vec<String> = chain.chain(beside).collect();
    lines.push("put 0 1 0 0 0 \"1\" \"1\" c - - -".to_string());
    let drawn = |lines: &[String]| {
        let mut played = Played::default();
        played.line(b"start 500 900 1 0");
        lines.iter().for_each(|line| drop(played.line(line.as_bytes())));
        played.line(b"sync");
        (draw::text(&played.scene()), draw::svg(&played.scene()))
    };
    let (text, svg) = drawn(&lines);
    let table = Table::of(&text);
    assert_eq!(table.0.len(), 400);
    assert_eq!(table.with("<- BEST  <- CANONICAL BEST"), ["12c"]);
    assert!(table.0.iter().zip(1..).all(|(row, at)| at > 298 || row.cell("hash") == format!("{:x}", 301 - at)));
    let to_genesis = (299..399).filter(|at| table.led(*at) == Some(("1".to_string(), true))).count();
    assert!((30..100).contains(&to_genesis) && text.contains("too many side by side"), "{to_genesis}");
    assert!(text.lines().all(|line| line.chars().count() < 200));
    assert_eq!(svg.matches("<g class=\"block").count(), 400);
    xml::texts(&svg).unwrap();
    lines.reverse();
    assert_eq!(drawn(&lines), (text, svg));
}

/// The boxes say what the table says.
#[test]
fn svg_of_recorded_histories() {
    if !with_library() {
        return;
    }
    let mut played = Played::default();
    history::lines(&text(&folder().join("untidy/unreadable-amounts.txt"))).for_each(|line| drop(played.line(line)));
    let svg = draw::svg(&played.scene());
    let texts = xml::texts(&svg).unwrap();
    let mut boxes: Vec<Vec<&str>> = Vec::new();
    for (path, text) in &texts {
        match (path.as_str(), boxes.last_mut()) {
            ("svg/g/title", _) => boxes.push(vec![text.as_str()]),
            ("svg/g/text", Some(last)) => last.push(text),
            _ => (),
        }
    }
    let of = |hash: &str| &boxes.iter().find(|one| one[0] == hash).expect("a box")[1..];
    assert_eq!(boxes.len(), 6);
    assert!(of("b").ends_with(&["not linked:", "actual unreadable"]), "{:?}", of("b"));
    assert!(of("e").contains(&"BEST") && of("e").contains(&"linked 0x7 no") && of("e").contains(&"live, leaf"));
    assert!(of("c").contains(&"CANONICAL BEST") && of("c").contains(&"clinked 0x6 no"));
    assert!(!of("a").contains(&"BEST") && of("a").contains(&"live, canonical"));
    // Dashed are the two that are not linked; a and c are the canonical line.
    assert_eq!(svg.matches("<g class=\"block unlinked\">").count(), 2);
    assert_eq!(
        (svg.matches("<path class=\"canonical\"").count(), svg.matches("<path class=\"parent\"").count()),
        (1, 3)
    );
}
