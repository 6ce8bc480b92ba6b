//! The program: what it prints and how it exits.
use crate::recorded::{all, folder, text};
use crate::xml;
use cadraspes::{linked, NOT_LINKED};
use std::process::Output;

fn run(args: &[&str], input: &[u8]) -> Output {
    history::heard(env!("CARGO_BIN_EXE_cadraspes"), args, input).expect("the program was built with the tests")
}

/// What it prints, or none where it says that there is no library.
fn printed(args: &[&str], input: &[u8]) -> Option<Vec<u8>> {
    let output = run(args, input);
    let told = String::from_utf8_lossy(&output.stderr);
    if !linked() {
        assert_eq!((output.status.code(), told.trim_end(), output.stdout.len()), (Some(1), NOT_LINKED, 0), "{args:?}");
        return None;
    }
    // what a drawing leaves out, and nothing else
    let expected = told.lines().all(|line| args[0] == "draw" && line.starts_with("line "));
    assert!(output.status.success() && expected, "{args:?}: {told}");
    Some(output.stdout)
}

#[test]
fn replay_prints_the_recorded_answers() {
    for file in all() {
        let answers = printed(&["replay", file.to_str().expect("a name")], b"");
        let recorded = text(&file.with_extension("answers"));
        assert!(answers.is_none_or(|answers| answers == recorded), "{}", file.display());
    }
}

#[test]
fn standard_input_is_read_for_a_dash() {
    let history = b"start 4 9 1 0\nput 0 a 0 0 0 \"1\" \"1\" c - - -\nbest\nsync\nbest";
    let Some(answers) = printed(&["replay", "-"], history) else { return };
    assert_eq!(answers, b"0\n0\n12\n0\n0 a 0x1 ok\n");
    let drawn = String::from_utf8(printed(&["draw", "-"], history).expect("linked")).expect("text");
    assert!(drawn.contains("\nbest: a, work 0x1, proofs ok\n"), "{drawn}");
    let file = folder().join("first.txt");
    let from_file = printed(&["draw", file.to_str().expect("a name")], b"");
    assert_eq!(from_file, printed(&["draw", "-"], &text(&file)));
    assert_eq!(printed(&["replay", "-"], b""), Some(Vec::new()));
}

/// A drawing says on standard error what it does not show; not that a question
/// was refused.
#[test]
fn drawings_say_what_was_left_out() {
    let history = b"start 1 9 1 0\n# a remark\nput 0 a 0 0 0 \"1\" \"1\" - - - -\nbest\nput 0 b 1 0 a \"1\" \"1\" - - - -\npt 0 c\nsync\n";
    let output = run(&["draw", "-"], history);
    if !linked() {
        return;
    }
    let told = String::from_utf8(output.stderr).expect("text");
    let lines: Vec<&str> = told.lines().collect();
    assert!(output.status.success() && lines.len() == 2, "{told}");
    assert!(lines[0].starts_with("line 5: refused, 5 FULL: ") && lines[1].starts_with("line 6: ? "), "{told}");
}

/// A long history, more of it than a pipe holds.
#[test]
fn long_histories_are_answered() {
    let history = format!("start 4 9 1 0\n{}version\n", "put 0 a 0 0 0 \"1\" \"1\" c - - -\n# on\n".repeat(20_000));
    let Some(answers) = printed(&["replay", "-"], history.as_bytes()) else { return };
    assert_eq!(answers, format!("{}0 20000\n", "0\n".repeat(20_001)).into_bytes());
}

#[test]
fn svg_is_well_formed() {
    for name in ["first", "untidy/indexes-do-not-follow", "format/words", "format/before-start", "holdings/loads"] {
        let file = folder().join(format!("{name}.txt"));
        let Some(svg) = printed(&["draw", "--svg", file.to_str().expect("a name")], b"") else { return };
        let svg = String::from_utf8(svg).expect("text");
        assert!(svg.starts_with("<svg xmlns=\"http://www.w3.org/2000/svg\" "), "{svg}");
        xml::texts(&svg).unwrap_or_else(|why| panic!("{name}: {why}"));
    }
}

#[test]
fn what_cannot_be_read_is_said() {
    let nowhere = folder().join("nowhere.txt");
    for file in [nowhere.to_str().expect("a name"), folder().to_str().expect("a name")] {
        for args in [&["replay", file][..], &["draw", file], &["draw", "--svg", file]] {
            let output = run(args, b"");
            let told = String::from_utf8_lossy(&output.stderr).into_owned();
            assert_eq!((output.status.code(), output.stdout.len()), (Some(1), 0), "{args:?}: {told}");
            assert!(!linked() || told.starts_with(&format!("{file}: ")), "{told}");
        }
    }
    for args in [&[][..], &["replay"], &["draw"], &["draw", "--svg"], &["draw", "--png", "-"], &["run", "-"]] {
        let output = run(args, b"");
        assert_eq!((output.status.code(), output.stdout.len()), (Some(2), 0), "{args:?}");
        assert!(output.stderr.starts_with(b"cadraspes replay FILE"), "{args:?}");
    }
}
