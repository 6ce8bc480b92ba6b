//! The pages of histories/class: a page shows its history and its answers as
//! they are recorded, and what it says of a change comes to pass.
use crate::recorded::{all, text};
use std::path::PathBuf;

fn class() -> Vec<PathBuf> {
    let files: Vec<PathBuf> =
        all().into_iter().filter(|file| file.parent().is_some_and(|inner| inner.ends_with("class"))).collect();
    assert_eq!(files.len(), 4);
    files
}

/// The blocks of a page that stand four spaces in: the history, its answers,
/// the change, the last answers then, the commands.
fn blocks(page: &str) -> [String; 5] {
    let mut blocks = vec![String::new()];
    for line in page.lines() {
        match line.strip_prefix("    ") {
            Some(inside) => *blocks.last_mut().expect("one at least") += &format!("{inside}\n"),
            None if blocks.last().is_some_and(|block| !block.is_empty()) => blocks.push(String::new()),
            None => (),
        }
    }
    blocks.retain(|block| !block.is_empty());
    blocks.try_into().expect("five blocks")
}

#[test]
fn pages_show_what_is_recorded() {
    let readme = text(&PathBuf::from(env!("CARGO_MANIFEST_DIR")).join("../../README.md"));
    for file in class() {
        let [history, answers, _, _, commands] = blocks(&text(&file.with_extension("md")));
        assert_eq!(history, text(&file));
        assert_eq!(answers, text(&file.with_extension("answers")), "{}", file.display());
        let name = file.file_stem().expect("a name").to_string_lossy();
        assert_eq!(commands.matches(&format!(" histories/class/{name}.txt ")).count(), 2, "{name}");
        assert!(readme.contains(&format!("(histories/class/{name}.md)")), "README.md has no link to {name}");
    }
}

#[test]
fn changes_come_to_pass() {
    for file in class() {
        let [history, _, change, then, _] = blocks(&text(&file.with_extension("md")));
        let (old, new) = change.split_once('\n').expect("a line and another");
        let (old, new) = (old.strip_prefix("- ").expect("what goes"), new.strip_prefix("+ ").expect("what comes"));
        let changed = history.replace(&format!("\n{old}\n"), &format!("\n{new}"));
        assert_ne!(changed, history, "{}", file.display());
        let answers = reading::replay(changed.as_bytes());
        assert!(answers.ends_with(&format!("\n{then}")), "{}:\n{answers}", file.display());
    }
}
