//! A small crate of its own, proved by the kit, and wrong answers of it that
//! are none.
use crate::folder::Folder;
use gate::kit::Repository;
use gate::passed::Passed;
use std::fs;
use std::path::PathBuf;
use std::process::Command;
use std::sync::{Mutex, PoisonError};

const CODE: &str = "#![tactic(auto)]

ghost use Rattle.small.specs.Doubling.{double};
ghost use Rattle.std.specs.Prelude.{◌+◌, ◌<◌, ◌≡◌, ◌≤◌};

const ONE: u64 = 1;

pub fn next(x: u64) -> u64
    requires { x < 1000 }
    ensures { result ≡ x + 1 }
{
    x + ONE
}

pub fn twice(x: u64) -> u64
    requires { x < 1000 }
    ensures { result ≡ double x }
{
    x + x
}

pub fn above(x: u64) -> u64
    requires { x < 1000 }
    ensures { result ≡ 1 + x }
{
    next(x)
}

pub fn least(x: u64, y: u64) -> u64
    ensures { (result ≤ x) × (result ≤ y) }
{
    if x < y {
        return x;
    }
    y
}
";
const DOUBLING: &str = "use Rattle.std.specs.Prelude.{ℕ, ◌+◌}

unfoldable pub double : ℕ → ℕ
double n = n + n
";
const CASES: &str = "use Rattle.std.specs.Prelude.{ℕ, ◌≡◌}
use Rattle.small.specs.Doubling.{double}
use mathlib.Core.Path.{refl}

of-two : double 2 ≡ 4
unfolding double
of-two = refl

of-none : double 0 ≡ 0
unfolding double
of-none = refl
";
const TWICE: &str = "use Rattle.small.proofs.twice.Goals as goal
use Rattle.small.specs.Doubling.{double}
use Rattle.std.proofs.Common.{rules}

pub returns : goal.returns
unfolding double
returns c = search rules
";
const LEAST: &str = "use native.Mathlib.Omega.{arith}
use Rattle.small.proofs.least.Goals as goal

pub returns-then-x-y : goal.returns-then-x-y
returns-then-x-y c = let is-less = c.if-x-y.true in (omega arith, omega arith)

pub returns : goal.returns
returns c = let is-not = c.if-x-y.false in (omega arith, omega arith)
";

/// One changed place, and what is named for it.
fn place(name: &str, file: &str, old: &str, new: &str) -> String {
    format!("# refused: {name}\nfile: {file}\nold: {old}\nnew: {new}\n")
}

fn in_code(name: &str, old: &str, new: &str) -> String {
    place(name, "src/lib.rt", old, new)
}

fn in_definition(law: &str, new: &str) -> String {
    place(law, "specs/Doubling.antt", "double n = n + n", new)
}

/// The small crate with these edits, each as file of must-fail/ and text.
fn small(name: &str, edits: &[(&str, String)]) -> Folder {
    let folder = Folder::new(name);
    for (file, text) in [
        ("crates.txt", "small:\n"),
        ("crates/small/src/lib.rt", CODE),
        ("crates/small/specs/Lib.antt", "pub mod Doubling\n"),
        ("crates/small/specs/Doubling.antt", DOUBLING),
        ("crates/small/proofs/Lib.antt", "mod Cases\n"),
        ("crates/small/proofs/Cases.antt", CASES),
        ("crates/small/proofs/twice/Answers.antt", TWICE),
        ("crates/small/proofs/least/Answers.antt", LEAST),
    ] {
        folder.write(file, text);
    }
    for (file, text) in edits {
        folder.write(&format!("crates/small/must-fail/{file}.edit"), text);
    }
    folder
}

/// One at a time, since each takes all cores.
static TURN: Mutex<()> = Mutex::new(());

/// What is said of the crate's edits, in order; none where the kit is not at
/// hand.
fn faults(folder: &Folder) -> Option<Vec<String>> {
    let _turn = TURN.lock().unwrap_or_else(PoisonError::into_inner);
    let names = ["small".to_string()];
    let repository = Repository::new(&kit_at_hand(folder)?, &names).expect("rt names the kit");
    let mut reports = gate::look(&repository, &names).expect("the crate is proved as it is");
    Some(reports.remove(0).faults)
}

/// The folder, where the kit is at hand to try its crate.
fn kit_at_hand(folder: &Folder) -> Option<PathBuf> {
    if Command::new("rt").arg("doc").output().is_err() {
        eprintln!("the kit is not at hand: the check of the wrong answers was not tried");
        return None;
    }
    Some(folder.0.canonicalize().expect("it is there"))
}

/// That the crate with these edits has just the faults named, each with the
/// edit that has it.
fn found(name: &str, edits: &[(&str, String)], expected: &[&str]) {
    let Some(found) = faults(&small(name, edits)) else { return };
    let expected: Vec<String> = expected.iter().map(|fault| format!("crates/small/must-fail/{fault}")).collect();
    assert_eq!(found, expected);
}

#[test]
fn wrong_answers_pass() {
    let together = [
        in_code("next", "    x + ONE", "    x + 2"),
        in_code("twice", "    x + x", "    x + 1"),
        in_code("above", "    next(x)", "    next(0)"),
    ];
    let edits = [
        ("constant", in_code("next", "const ONE: u64 = 1;", "const ONE: u64 = 2;")),
        ("promise", in_code("next", "result ≡ x + 1", "result ≡ x + 2")),
        ("together", together.join("\n")),
        ("least", in_code("least", "if x < y", "if y < x")),
        ("one_more", in_code("next", "    x + ONE", "    ONE + ONE")),
        ("thrice", in_definition("Cases.of-two", "double n = n + (n + n)")),
        ("two_more", in_definition("Cases.of-none", "double n = n + 2")),
    ];
    found("pass", &edits, &[]);
}

/// Right or wrong, written or searched for: a proof that no longer fits is
/// refused for that alone.
#[test]
fn another_shape_is_caught() {
    let edits = [
        ("right", in_code("twice", "    x + x", "    if x == 0 { 0 } else { x + x }")),
        ("searched", in_code("next", "    x + ONE", "    x + ONE + ONE")),
        ("wrong", in_code("twice", "    x + x", "    x + x + 1")),
        ("definition", in_definition("Cases.of-two", "double n m = n + n")),
    ];
    let expected = [
        "definition.edit: Cases.of-two is not refused for a fact of its own; refused are: ",
        "right.edit: twice has another shape, so that its proof no longer fits: change a value or a comparison",
        "searched.edit: next has another shape, so that its proof no longer fits: change a value or a comparison",
        "wrong.edit: twice has another shape, so that its proof no longer fits: change a value or a comparison",
    ];
    found("shape", &edits, &expected);
}

#[test]
fn a_right_edit_is_caught() {
    let wrong = in_code("twice", "    x + x", "    x + 1");
    let edits = [
        ("beside", in_code("next", "    x + ONE", "    ONE + x") + "\n" + &wrong),
        ("definition", in_definition("Cases.of-two", "double n = n + (n + 0)")),
        ("other_names", in_code("least", "if x < y", "if x <= y")),
    ];
    let expected = [
        "beside.edit: next: NOT REFUSED: the crate is still proved with this place alone",
        "definition.edit: NOT REFUSED: the crate is still proved with it",
        "other_names.edit: NOT REFUSED: the crate is still proved with it",
    ];
    found("right", &edits, &expected);
}

#[test]
fn a_place_without_a_line_of_its_own_is_caught() {
    let next = in_code("next", "    x + ONE", "    x + 2");
    let edits = [
        ("constant", in_code("twice", "const ONE: u64 = 1;", "const ONE: u64 = 2;")),
        ("elsewhere", in_code("twice", "    x + ONE", "    x + 2")),
        ("none", next.clone() + "file: src/lib.rt\nold:     x + x\nnew:     x + 1\n"),
        ("outside", place("next", "src/../src/lib.rt", "    x + ONE", "    x + 2")),
        ("proof", place("twice", "proofs/twice/Answers.antt", "goal.returns", "goal.others")),
        ("one_for_two", next.clone() + "old:     x + x\nnew:     x + 1\n"),
        ("twice", next + &in_code("next", "result ≡ x + 1", "result ≡ x + 2")),
    ];
    let expected = [
        "constant.edit: twice is not refused for a fact of its own; refused are: next",
        "constant.edit: next is changed too, and no `# refused: ` line names it",
        "elsewhere.edit: this place stands in next, and twice is named for it: x + ONE",
        "none.edit: this place has no `# refused: NAME` line of its own: x + x",
        "one_for_two.edit: this place has no `# refused: NAME` line of its own: x + x",
        "outside.edit: a wrong answer stands in src/ or specs/: src/../src/lib.rt",
        "proof.edit: a wrong answer stands in src/ or specs/: proofs/twice/Answers.antt",
        "twice.edit: next is named twice: of two wrong answers one could hide behind the other",
    ];
    found("places", &edits, &expected);
}

/// A function that calls one whose promise is changed may fall for that, and a
/// law for another definition than the one that names it.
#[test]
fn what_falls_for_a_neighbour_is_caught() {
    let promise = in_code("next", "result ≡ x + 1", "result ≡ x + 2");
    let definition = in_definition("Cases.of-two", "double n = n + (n + n)");
    let edits = [
        ("caller", promise + &in_code("above", "    next(x)", "    next(0)")),
        (
            "constant",
            in_code("next", "const ONE: u64 = 1;", "const ONE: u64 = 2;") + &in_code("above", "next(x)", "next(0)"),
        ),
        ("definition", definition + &in_code("next", "    x + ONE", "    x + 2")),
        ("thrice", in_definition("Cases.of-none", "double n = n + (n + n)")),
        ("two_more", in_definition("Cases.of-two", "double n = n + 2")),
    ];
    let expected = [
        "caller.edit: above may fall because of what next promises, which it calls: not in one edit",
        "constant.edit: a place in no function is an edit by itself: const ONE: u64 = 1;",
        "definition.edit: a place in no function is an edit by itself: double n = n + n",
        "thrice.edit: Cases.of-none is not refused for a fact of its own; refused are: Cases.of-two twice",
        "two_more.edit: Cases.of-two is not refused for a fact of its own; refused are: Cases.of-none twice",
    ];
    found("neighbour", &edits, &expected);
}

#[test]
fn an_edit_that_nobody_tries_is_an_error() {
    let wrong = in_code("twice", "    x + x", "    x + 1");
    let folder = small("untried", &[("wrong", wrong.clone()), ("deeper/wrong", wrong)]);
    let (Some(root), names) = (kit_at_hand(&folder), ["small".to_string()]) else { return };
    let repository = Repository::new(&root, &names).expect("rt names the kit");
    let error = gate::look(&repository, &names).err().expect("an error").to_string();
    assert!(error.ends_with("must-fail/deeper/wrong.edit is no edit that is tried"), "{error}");
}

/// What is kept of one run is not believed in the next: the crate has lost the
/// law by which the definition was refused.
#[test]
fn a_crate_that_changed_is_tried_anew() {
    let folder = small("changed", &[("thrice", in_definition("Cases.of-two", "double n = n + (n + n)"))]);
    let Some(before) = faults(&folder) else { return };
    let weaker = CASES.replace("double 2 ≡ 4", "double 0 ≡ 0");
    fs::write(folder.0.join("crates/small/proofs/Cases.antt"), weaker).expect("it is there");
    let after = faults(&folder).expect("the kit is still there");
    let expected = "thrice.edit: Cases.of-two is not refused for a fact of its own; refused are: twice";
    assert_eq!((before, after), (vec![], vec![format!("crates/small/must-fail/{expected}")]));
}

/// The same sources have one name, and each file that a verdict stands on is in
/// it.
#[test]
fn what_passed_is_found_by_all_that_it_stands_on() {
    let folder = small("passed", &[("wrong", in_code("twice", "    x + x", "    x + 1"))]);
    let Some(root) = kit_at_hand(&folder) else { return };
    folder.write("crates.txt", "small:\nlarger: small\n");
    folder.write("crates/larger/src/lib.rt", "pub fn none() {}\n");
    folder.write("crates/larger/must-fail/none.edit", "file: src/lib.rt\nold: none\nnew: some\n");
    let passed = Passed::new(&root).expect("rt names the kit");
    let key = |name: &str| passed.key(name).expect("sha256sum");
    let (small, larger) = (key("small"), key("larger"));
    assert_eq!((&key("small"), &key("larger")), (&small, &larger));
    folder.write("crates/small/must-fail/wrong.edit", &in_code("twice", "    x + x", "    x + 2"));
    assert!(key("small") != small && key("larger") == larger, "edits are the crate's own");
    let (small, larger) = (key("small"), key("larger"));
    folder.write("crates/small/specs/Doubling.antt", &DOUBLING.replace("n + n", "n + (n + 0)"));
    assert!(key("small") != small && key("larger") != larger, "a source of it and of one below");
}
