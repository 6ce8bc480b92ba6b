//! Histories with the answers beside them, on the reading of document 01 and
//! on the original.
use oracle::judge::{at_hand, Judge, NOT_AT_HAND};
use std::io::Write;
use std::sync::Once;

static TOLD: Once = Once::new();

/// Says in one line, not to be held back with a test's own output, if the
/// original's sources are not at hand.
pub fn with_original() -> bool {
    if !at_hand() {
        TOLD.call_once(|| drop(writeln!(std::io::stderr(), "{NOT_AT_HAND}")));
    }
    at_hand()
}

/// Each line is a call, ` => ` and its answer, the entries of a list behind
/// ` | `. Both must give these answers.
pub fn expect(pairs: &str) {
    let pairs: Vec<(&str, String)> = pairs.lines().map(str::trim).filter(|line| !line.is_empty()).map(pair).collect();
    let history: String = pairs.iter().map(|(call, _)| format!("{call}\n")).collect();
    let answers: Vec<String> = pairs.iter().map(|(_, answer)| answer.clone()).collect();
    let mut replay = reading::Replay::default();
    for ((call, answer), line) in pairs.iter().zip(1..) {
        let read = replay.line(call.as_bytes()).expect("an answer").to_string();
        assert_eq!(fixed(&read), *answer, "the reading, line {line}: {call}");
    }
    let (judge, answered) = Judge::run(history.as_bytes(), true);
    let given: Vec<String> = answered.iter().map(|one| fixed(&one.answer.to_string()).to_string()).collect();
    assert_eq!(given, answers, "the original");
    assert!(judge.differences.is_empty(), "{:?}", judge.differences);
    assert_eq!(judge.outside, None, "the history leaves the domain");
}

fn pair(line: &str) -> (&str, String) {
    let (call, answer) = line.split_once(" => ").unwrap_or_else(|| panic!("no answer beside {line}"));
    (call, answer.replace(" | ", "\n  "))
}

/// The words after `? ` are free.
fn fixed(answer: &str) -> &str {
    if answer.starts_with('?') {
        "?"
    } else {
        answer
    }
}
