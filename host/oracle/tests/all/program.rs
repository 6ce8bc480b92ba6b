//! The program itself: what it prints and how it exits.
use std::process::Output;

const ORACLE: &str = env!("CARGO_BIN_EXE_oracle");

fn oracle(args: &[&str], input: &str) -> Output {
    history::heard(ORACLE, args, input.as_bytes()).expect("the program was built with the tests")
}

fn printed(args: &[&str], input: &str) -> String {
    let output = oracle(args, input);
    assert!(output.status.success(), "{args:?}: {}", String::from_utf8_lossy(&output.stderr));
    String::from_utf8(output.stdout).unwrap()
}

#[test]
fn run_prints_the_answers() {
    let history = "start 4 9 1 0\nput 0 a 0 0 0 \"1\" \"1\" c - - -\nbest\nsync\nbest";
    assert_eq!(printed(&["run"], history), "0\n0\n12\n0\n0 a 0x1 ok\n");
    assert_eq!(printed(&["run", "--sweep"], history), "0\n0\n12\n0\n0 a 0x1 ok\n");
}

#[test]
fn gen_is_the_same_for_the_same_seed() {
    let one = printed(&["gen", "7", "tiny"], "");
    assert_eq!(one, printed(&["gen", "7", "tiny"], ""));
    assert_ne!(one, printed(&["gen", "8", "tiny"], ""));
    assert_eq!(printed(&["gen", "7"], ""), printed(&["gen", "7", "mixed"], ""));
}

#[test]
fn amounts_reads_standard_input() {
    assert_eq!(printed(&["amounts"], "7\n007\nx"), "0x7\n0x7\n?\n");
}

/// The program is right about itself, and anything that answers nothing is
/// wrong, with a history of a single call.
#[test]
fn fuzz_finds_a_wrong_program() {
    assert_eq!(printed(&["fuzz", "0", "1", ORACLE, "run"], ""), "");
    let output = oracle(&["fuzz", "0", "1", ORACLE, "amounts"], "");
    assert_eq!(output.status.code(), Some(1));
    let small = String::from_utf8(output.stdout).unwrap();
    assert!(small.starts_with("# from: oracle gen 0 tidy\n") && small.lines().count() == 2, "{small}");
}

#[test]
fn compare_and_cover_say_that_there_is_no_difference() {
    let told = printed(&["compare", "--histories", "2", "--seed", "3", "--profile", "tiny"], "");
    let expected = if oracle::judge::at_hand() { "2 histories, " } else { oracle::judge::NOT_AT_HAND };
    assert!(told.starts_with(expected) && told.lines().count() == 1, "{told}");
    let table = printed(&["cover", "0", "1", "tiny"], "");
    assert!(table.ends_with("differ: 0.\n") && table.contains("| histories | 1 | 1 |"), "{table}");
}

/// One line on standard output, progress beside it; without the library a line
/// says so, and nothing has failed.
#[test]
fn compare_with_the_library_says_how_far_it_is_and_what_it_came_to() {
    let args =
        ["compare", "--library", "--histories", "40", "--seed", "3", "--profile", "tiny", "--profile", "holdings"];
    let output = oracle(&args, "");
    let (told, beside) = (String::from_utf8(output.stdout).unwrap(), String::from_utf8(output.stderr).unwrap());
    assert!(output.status.success() && told.lines().count() == 1, "{told}{beside}");
    if !cadraspes::linked() {
        assert_eq!(told.trim_end(), cadraspes::NOT_LINKED);
        return;
    }
    let with = if oracle::judge::at_hand() { "the original and the reading" } else { "the reading alone" };
    assert!(told.starts_with("40 histories, ") && told.ends_with(": no difference\n"), "{told}");
    assert!(told.contains(&format!("compared with {with} (refused ")), "{told}");
    let progress: Vec<&str> = beside.lines().filter(|line| line.contains(" of 40 histories, ")).collect();
    assert!(progress.len() == 20 && progress[0].starts_with("2 of 40 "), "{beside}");
}

#[test]
fn a_wrong_command_line_exits_with_2() {
    let full = vec!["compare", "--profile", "full"];
    for args in [vec![], vec!["frob"], vec!["gen", "x"], vec!["gen", "1", "nosuch"], vec!["compare", "--seed"], full] {
        assert_eq!(oracle(&args, "").status.code(), Some(2), "{args:?}");
    }
}
