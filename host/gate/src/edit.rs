//! An edit of a crate's `must-fail/`: wrong answers, each a changed place of
//! the crate's text with the names of what must be refused because of it.
use std::collections::{BTreeMap, BTreeSet};
use std::fs;
use std::path::{Path, PathBuf};

/// One wrong answer.
#[derive(Debug)]
pub struct Wrong {
    /// Each a function, as `words/flags` of src/words.rt, or a law of a file of
    /// proofs/, as `Cases.best_by_work`.
    pub refused: Vec<String>,
    pub file: String,
    pub old: String,
    pub new: String,
}

/// Reads an edit as rt does (`file:` holds for the pairs of `old:` and `new:`
/// after it), and asks more of it: each changed place has `# refused: NAME`
/// lines of its own, and no name stands twice, since of two wrong answers in
/// one function one could hide behind the other.
pub fn read(text: &str) -> Result<Vec<Wrong>, String> {
    let (mut file, mut old, mut refused, mut all) = ("", "", Vec::new(), Vec::new());
    let mut named = BTreeSet::new();
    for line in text.lines() {
        if let Some(name) = line.strip_prefix("# refused: ") {
            if !named.insert(name) {
                return Err(format!("{name} is named twice: of two wrong answers one could hide behind the other"));
            }
            refused.push(name.to_string());
        } else if let Some(name) = line.strip_prefix("file: ") {
            file = name;
        } else if let Some(text) = line.strip_prefix("old: ") {
            old = text;
        } else if let Some(new) = line.strip_prefix("new:") {
            let new = new.strip_prefix(' ').unwrap_or(new);
            let refused = std::mem::take(&mut refused);
            if !(file.starts_with("src/") || file.starts_with("specs/")) || file.contains("..") {
                return Err(format!("a wrong answer stands in src/ or specs/: {file}"));
            }
            if refused.is_empty() {
                return Err(format!("this place has no `# refused: NAME` line of its own: {}", old.trim()));
            }
            all.push(Wrong { refused, file: file.into(), old: old.into(), new: new.into() });
        } else if line.starts_with("# refused") {
            return Err(format!("such a line reads `# refused: NAME`: {line}"));
        }
    }
    match refused.pop() {
        Some(name) => Err(format!("{name} is named, and no place is changed for it")),
        None if all.is_empty() => Err("it changes nothing".into()),
        None => Ok(all),
    }
}

impl Wrong {
    /// The function that the place stands in, its contract or its body: the
    /// last that begins before the place's end and has not ended before it.
    /// None of a constant, of what a contract brings in, and of specs.
    pub fn function(&self, source: &Path) -> Option<String> {
        let text = fs::read_to_string(source.join(&self.file)).ok()?;
        let end = text.find(&self.old)? + self.old.len();
        function_at(&self.file, &text[..end].lines().collect::<Vec<&str>>())
    }
}

/// The function of a file of src/ that the last of its lines stands in, these
/// being the first of the file.
pub fn function_at(file: &str, lines: &[&str]) -> Option<String> {
    let module = file.strip_prefix("src/")?.strip_suffix(".rt")?;
    let (mut name, mut has_ended) = (None, false);
    for line in lines {
        if has_ended {
            name = None;
        }
        has_ended = *line == "}";
        let begins = line.trim_start_matches("pub ").trim_start_matches("extern \"C\" ").strip_prefix("fn ");
        name = begins.and_then(|rest| rest.split(['(', '<']).next()).or(name);
    }
    let name = name?;
    Some(if module == "lib" || module == "main" { name.into() } else { format!("{module}/{name}") })
}

/// The files of a crate that an edit changes, as they are with it. Each place
/// must stand there once.
pub fn applied(edit: &[&Wrong], source: &Path) -> Result<BTreeMap<PathBuf, String>, String> {
    let mut all = BTreeMap::new();
    for wrong in edit {
        let text = match all.remove(Path::new(&wrong.file)) {
            Some(text) => text,
            None => fs::read_to_string(source.join(&wrong.file)).map_err(|error| format!("{}: {error}", wrong.file))?,
        };
        if text.matches(&wrong.old).count() != 1 {
            return Err(format!("{} does not have this place once: {}", wrong.file, wrong.old));
        }
        all.insert(PathBuf::from(&wrong.file), text.replace(&wrong.old, &wrong.new));
    }
    Ok(all)
}
