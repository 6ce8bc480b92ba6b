//! README.md's lines for a node are those that the crate's documentation
//! compiles and runs; its first history and the answers are the recorded ones,
//! and its drawing is drawn.
use crate::common::with_library;
use cadraspes::draw::{self, Played};
use std::path::Path;

fn text(file: &str) -> String {
    let file = Path::new(env!("CARGO_MANIFEST_DIR")).join(file);
    std::fs::read_to_string(&file).unwrap_or_else(|error| panic!("{}: {error}", file.display()))
}

#[test]
fn the_lines_for_a_node_are_compiled() {
    let readme = text("../../README.md");
    let (_, shown) = readme.split_once("```rust\n").expect("the lines for a node");
    let shown: Vec<&str> = shown.lines().take_while(|line| *line != "```").collect();
    let crate_docs = text("src/lib.rs");
    let docs: Vec<&str> = crate_docs.lines().map_while(|line| line.strip_prefix("//!")).collect();
    let blocks = docs.split(|line| line.starts_with(" ```")).skip(1).step_by(2);
    let compiled: Vec<Vec<&str>> = blocks
        .map(|block| block.iter().map(|line| line.strip_prefix(' ').unwrap_or(line)))
        .map(|lines| lines.filter(|line| !line.starts_with("# ")).collect())
        .collect();
    assert!(shown.len() >= 10 && compiled.contains(&shown), "{shown:#?} is not among {compiled:#?}");
}

/// The blocks of a page that stand four spaces in.
fn blocks(page: &str) -> Vec<String> {
    let mut blocks = vec![String::new()];
    for line in page.lines() {
        match line.strip_prefix("    ") {
            Some(inside) => *blocks.last_mut().expect("one at least") += &format!("{inside}\n"),
            None => blocks.push(String::new()),
        }
    }
    blocks
}

#[test]
fn the_first_history_is_as_recorded() {
    let shown = blocks(&text("../../README.md"));
    for recorded in ["../../histories/first.txt", "../../histories/first.answers"] {
        assert!(shown.contains(&text(recorded)), "README.md does not show {recorded}");
    }
}

#[test]
fn the_first_history_is_drawn() {
    if !with_library() {
        return;
    }
    let mut played = Played::default();
    history::lines(text("../../histories/first.txt").as_bytes()).for_each(|line| drop(played.line(line)));
    let drawn = draw::text(&played.scene());
    let (_, rows) = drawn.rsplit_once("\n\n").expect("a heading, and the rows after it");
    assert!(blocks(&text("../../README.md")).iter().any(|block| block == rows), "README.md does not show\n{rows}");
}
