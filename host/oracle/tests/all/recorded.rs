//! The recorded histories on the original and on the reading of document 01.
use crate::common::with_original;
use oracle::coverage::PLAN_WAYS;
use oracle::judge::Judge;
use oracle::record::histories;
use std::collections::BTreeSet;
use std::path::{Path, PathBuf};

pub fn all() -> Vec<PathBuf> {
    let folder = Path::new(env!("CARGO_MANIFEST_DIR")).join("../../histories");
    let files = histories(&folder).expect("histories/ lies beside host/");
    assert!(files.len() > 100, "only {} histories in {}", files.len(), folder.display());
    files
}

pub fn text(file: &Path) -> String {
    std::fs::read_to_string(file).unwrap_or_else(|error| panic!("{}: {error}", file.display()))
}

#[test]
fn the_reading_gives_the_recorded_answers() {
    for file in all() {
        let answers = reading::replay(text(&file).as_bytes());
        assert_eq!(answers, text(&file.with_extension("answers")), "{}", file.display());
    }
}

#[test]
fn the_original_gives_the_recorded_answers() {
    if !with_original() {
        return;
    }
    for file in all() {
        let (judge, answered) = Judge::run(text(&file).as_bytes(), true);
        let answers: String = answered.iter().map(|one| format!("{}\n", one.answer)).collect();
        assert_eq!(answers, text(&file.with_extension("answers")), "{}", file.display());
        assert!(judge.differences.is_empty(), "{}: {:?}", file.display(), judge.differences);
        assert_eq!(judge.outside, None, "{}", file.display());
    }
}

/// Each refusal in each call that can give it, each outcome, each plan branch.
#[test]
fn the_recorded_histories_show_every_branch() {
    let mut met: BTreeSet<String> = BTreeSet::new();
    for file in all() {
        met.extend(Judge::run(text(&file).as_bytes(), false).0.coverage.0.into_keys());
    }
    let questions = ["node", "parent", "linked", "clinked", "best", "cbest", "leaves", "ccount", "live"];
    let mut wanted: Vec<String> = PLAN_WAYS.map(str::to_string).to_vec();
    let refusals: [(u8, &[&str]); 13] = [
        (1, &["start"]),
        (2, &["load", "put", "remove"]),
        (3, &["load", "put"]),
        (4, &["load", "put"]),
        (5, &["load", "put"]),
        (6, &["put", "remove"]),
        (7, &["load"]),
        (8, &["reload"]),
        (9, &["answer"]),
        (10, &["answer"]),
        (11, &["answer"]),
        (12, &questions),
        (13, &["leaves", "changes", "select", "adopt"]),
    ];
    for (number, calls) in refusals {
        wanted.extend(calls.iter().map(|call| format!("refused {number:2} by {call}")));
    }
    wanted.extend(["select", "adopt"].map(|plan| format!("refused 12 by {plan}")));
    let outcomes = ["same-tip", "neither", "peer-only", "local-only", "peer-work", "local-work"];
    let ties = ["peer-tip", "local-tip", "peer-hash", "local-hash"];
    wanted.extend(outcomes.iter().chain(&ties).map(|outcome| format!("choose {outcome}")));
    wanted.extend(["sync rebuild", "sync incremental", "answer too late"].map(str::to_string));
    let missing: Vec<&String> = wanted.iter().filter(|way| !met.contains(*way)).collect();
    assert!(missing.is_empty(), "{missing:?}");
}

/// What replays holdings before there is a tree can replay these.
#[test]
fn the_holdings_histories_ask_the_holdings_only() {
    let known = "start reload load put remove answer sync effective count generation version changes lend";
    let known: Vec<&str> = known.split(' ').collect();
    for file in all().iter().filter(|file| file.parent().is_some_and(|inner| inner.ends_with("holdings"))) {
        for line in text(file).lines().filter(|line| !line.is_empty() && !line.starts_with('#')) {
            let name = line.split(' ').next().unwrap_or("");
            assert!(known.contains(&name), "{}: {line}", file.display());
        }
    }
}
