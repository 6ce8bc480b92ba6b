//! tools/replay-input: every recorded history is replayed but the one named.
use crate::folder::Folder;
use std::process::Output;

const LARGE: &str = "start 32768 200000 1 0\n";

/// A repository with two histories, of which one is to be left out.
fn recorded(name: &str) -> Folder {
    let folder = Folder::new(name);
    folder.write("crates/replay/src/main.rt", "const WORDS: usize = 1000;\n");
    folder.write("histories/refusals/start.txt", LARGE);
    folder.write("histories/refusals/start.answers", "0\n");
    folder.write("histories/first.txt", "start 4 4 1 0\nsync\n");
    folder.write("histories/first.answers", "0\n0\n");
    folder
}

fn run(folder: &Folder, args: &[&str]) -> Output {
    folder.tool("replay-input").args(args).output().expect("bash")
}

fn refused(folder: &Folder, expected: &str) {
    let output = run(folder, &["--check"]);
    let told = String::from_utf8_lossy(&output.stdout).into_owned();
    assert!(!output.status.success() && told.contains(expected), "{told}");
}

#[test]
fn what_it_writes_passes_its_check() {
    let folder = recorded("written");
    assert!(run(&folder, &[]).status.success() && run(&folder, &["--check"]).status.success());
    folder.write("crates/replay/stdout", "0\n");
    refused(&folder, "crates/replay/stdout is not what the histories make");
}

#[test]
fn a_history_that_is_left_out_is_an_error() {
    let folder = recorded("large");
    assert!(run(&folder, &[]).status.success());
    folder.write("histories/large.txt", LARGE);
    folder.write("histories/large.answers", "0\n");
    refused(&folder, "histories/large.txt: its start asks for more room than the program has");
    folder.write("histories/large.txt", "start 4 4 1 0\nsync\n");
    refused(&folder, "histories/large.txt: not as many answers as calls");
    folder.write("histories/large.answers", "0\n0\n");
    folder.write("histories/refusals/start.txt", "start 4 4 1 0\n");
    refused(&folder, "alone is to be left out, for its room, and this is:\nnothing");
}
