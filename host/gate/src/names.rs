//! The names of what a function's proof speaks of. The kit makes them of the
//! code's own words (`if-a-b` of `if a < b`), so that a wrong comparison has
//! other names than the right one, and a written proof would be refused for
//! these alone. Of two functions of one shape the same things are named in the
//! same order: the proof is given the edited function's names before it is
//! tried.
use std::collections::{BTreeMap, BTreeSet};
use std::fs;
use std::path::Path;

/// Which name stands for which in the edited function, by the folders in which
/// the kit wrote what it makes of the function, before and after.
pub fn renamed(before: &Path, after: &Path) -> BTreeMap<String, String> {
    let mut all = BTreeMap::<String, BTreeSet<String>>::new();
    let mut add = |old: &str, new: &str| {
        all.entry(old.into()).or_default().insert(new.into());
    };
    for file in ["Lts.antt", "Lts/View.antt", "Lts/Given.antt"] {
        let [old, new] = [before, after].map(|folder| fs::read_to_string(folder.join(file)).unwrap_or_default());
        let [old, new] = [&old, &new].map(|text| text.lines().filter_map(declared).collect::<Vec<&str>>());
        for (old, new) in paired(&old, &new) {
            add(old, new);
            for prefix in ["Named-", "In-"] {
                if let (Some(old), Some(new)) = (old.strip_prefix(prefix), new.strip_prefix(prefix)) {
                    add(old, new);
                }
            }
        }
    }
    let goals = [before, after].map(|folder| fs::read_to_string(folder.join("Goals.antt")).unwrap_or_default());
    let [old, new] = [&goals[0], &goals[1]].map(|goals| placed(goals));
    for (place, old) in &old {
        if let Some(new) = new.get(place) {
            add(old, new);
        }
    }
    // a name that stands for two things is left as it is
    let one = |(old, new): (String, BTreeSet<String>)| Some((old, new.first()?.clone())).filter(|_| new.len() == 1);
    all.into_iter().filter_map(one).filter(|(old, new)| old != new).collect()
}

/// The names of two lists that stand at the same place: those that are alike,
/// and between these as many on the one side as on the other. The edited
/// function may owe a fact more, which has names of its own.
fn paired<'a>(old: &[&'a str], new: &[&'a str]) -> Vec<(&'a str, &'a str)> {
    let mut longest = vec![vec![0; new.len() + 1]; old.len() + 1];
    for (i, one) in old.iter().enumerate().rev() {
        for (j, other) in new.iter().enumerate().rev() {
            longest[i][j] =
                if one == other { longest[i + 1][j + 1] + 1 } else { longest[i + 1][j].max(longest[i][j + 1]) };
        }
    }
    let (mut all, mut from, mut at) = (Vec::new(), (0, 0), (0, 0));
    loop {
        let is_end = at.0 == old.len() || at.1 == new.len();
        if is_end || old[at.0] == new[at.1] {
            let to = if is_end { (old.len(), new.len()) } else { at };
            if to.0 - from.0 == to.1 - from.1 {
                all.extend(old[from.0..to.0].iter().copied().zip(new[from.1..to.1].iter().copied()));
            }
            if is_end {
                return all;
            }
            all.push((old[at.0], new[at.1]));
            at = (at.0 + 1, at.1 + 1);
            from = at;
        } else if longest[at.0 + 1][at.1] >= longest[at.0][at.1 + 1] {
            at.0 += 1;
        } else {
            at.1 += 1;
        }
    }
}

/// The name that a line declares: of a definition, a record, a field or a case.
fn declared(line: &str) -> Option<&str> {
    let mut words =
        line.split_whitespace().skip_while(|word| ["abbrev", "pub", "unfoldable", "record", "data"].contains(word));
    let name = words.next()?;
    (words.next() == Some(":") && !name.starts_with(['(', '{', 'λ'])).then_some(name)
}

/// The names of goals and of places in the code, by what each stands for in the
/// kit's own numbering, as `Lts.Then3`.
fn placed(goals: &str) -> BTreeMap<&str, &str> {
    let mut all = BTreeMap::new();
    for block in goals.split("\n\n") {
        let defined = block.lines().position(|line| line.split_whitespace().nth(1) == Some("="));
        let words = defined.map(|at| block.lines().skip(at).flat_map(str::split_whitespace).collect::<Vec<&str>>());
        if let Some([name, _, place, ..]) = words.as_deref() {
            if place.starts_with("Lts.") {
                all.insert(*place, name.strip_prefix("the-fitted-").unwrap_or(name));
            }
        }
    }
    all
}

/// A proof's text with each name that is a word of its own exchanged.
pub fn exchanged(text: &str, renamed: &BTreeMap<String, String>) -> String {
    let is_between = |c: char| c.is_whitespace() || "(){}[],.;".contains(c);
    let mut made = String::new();
    for part in text.split_inclusive(is_between) {
        let word = part.trim_end_matches(is_between);
        made += renamed.get(word).map_or(word, String::as_str);
        made += &part[word.len()..];
    }
    made
}
