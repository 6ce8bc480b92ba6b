//! What the prover said of an edited crate.
use std::collections::BTreeSet;
use std::fs;
use std::path::Path;

/// How a refusal for a fact begins: two terms that are not the same, a term
/// that does not occur where the proof says so, or a search that ends without
/// a proof. All else (a name that is not there, arguments of another number, a
/// proof that leans on one that fell) says nothing of facts.
const FACTS: [&str; 11] = [
    "as printed, the two ",
    "computed as far as they go, the two ",
    "computed as a goal is, one side reads ",
    "expected type ",
    "give a proof of that as the last argument",
    "on the face ",
    "`search`: no proof of ",
    "`grind`: the goal does not follow",
    "`omega`: the goal does not follow ",
    "`omega`: the part ",
    "`rw`: no occurrence of ",
];

/// How a refusal for a name that is not there reads.
const NAMES: [&str; 4] = ["` has no `", "has no field `", "is not in scope", "that can be named from here"];

/// What is refused for a fact, by the names that an edit gives: functions, by
/// their written proofs or by the search for one, and laws. `source` is the
/// crate's folder, with the edit.
pub fn refused(said: &str, source: &Path) -> BTreeSet<String> {
    let lines: Vec<&str> = said.lines().collect();
    let next = |at: usize| lines.get(at + 1).copied().unwrap_or("");
    let errors: Vec<(String, &str, &str)> =
        lines.iter().enumerate().filter_map(|(at, line)| written(line, next(at))).collect();
    // Of a function whose proof names what is not there, some goals have lost their answer: what is searched for these
    // says nothing.
    let astray: BTreeSet<&String> =
        errors.iter().filter(|(_, said, _)| is_name(said)).map(|(name, _, _)| name).collect();
    let facts = errors.iter().filter(|(_, said, next)| is_fact(said, next)).map(|(name, _, _)| name.clone());
    let searched = lines.iter().filter_map(|line| unproved(line).or_else(|| open(line, source)));
    facts.chain(searched.filter(|name| !astray.contains(name))).collect()
}

fn is_name(said: &str) -> bool {
    NAMES.iter().any(|name| said.contains(name))
}

fn is_fact(said: &str, next: &str) -> bool {
    // two terms that are not the same stand in two lines
    FACTS.iter().any(|fact| said.starts_with(fact)) || next.starts_with("  ≟ `")
}

/// What a line refuses in a file of proofs/, a function or a law; the words of
/// the refusal; and the line after it.
fn written<'a>(line: &'a str, next: &'a str) -> Option<(String, &'a str, &'a str)> {
    let (place, said) = line.split_once(": error: `")?;
    let (_, place) = place.split_once("proofs/")?;
    let (file, _) = place.split_once(".antt:")?;
    let (declared, message) = said.split_once("`: ")?;
    let function = ["/Proof", "/Answers", "/Invariants"].iter().find_map(|kind| file.strip_suffix(kind));
    Some((function.map_or_else(|| format!("{file}.{declared}"), String::from), message, next))
}

/// A function with no written proof. (Of one that leans on a function that fell
/// the prover says that, and nothing is searched.)
fn unproved(line: &str) -> Option<String> {
    let (function, said) = line.strip_prefix("fn ")?.split_once(": no proof: ")?;
    let (_, name) = function.split_once("::")?;
    said.contains("; `search` did not prove ").then(|| name.replace("::", "/"))
}

/// The function of a goal that no proof was found of, which had one of its own
/// accord, since no answer of it is written: the line names the place in src/.
fn open(line: &str, source: &Path) -> Option<String> {
    let place = line.strip_prefix("note: ")?.strip_prefix("./").unwrap_or(line.strip_prefix("note: ")?);
    let (place, _) = place.split_once(": it is not proved that ")?;
    let mut parts = place.split(':');
    let (file, row) = (parts.next()?, parts.next()?.parse::<usize>().ok()?);
    let text = fs::read_to_string(source.join(file)).ok()?;
    let before: Vec<&str> = text.lines().take(row).collect();
    crate::edit::function_at(file, &before)
}
