//! Whether each wrong answer of an edit is refused for a fact of its own.
use crate::edit::Wrong;
use crate::kept::{Kept, Tried};
use crate::shape::Lowered;
use std::collections::BTreeSet;
use std::path::Path;
use std::{fs, io};

/// An edit of a crate, and how it is tried.
pub struct Judge<'a> {
    pub crate_name: &'a str,
    /// The crate as it is.
    pub source: &'a Path,
    pub kept: &'a Kept<'a>,
    pub edit: &'a [Wrong],
}

impl Judge<'_> {
    /// All that is amiss, each in a sentence. `keep` is given what the prover
    /// said, first of the edit and then of each place that was tried by itself.
    pub fn faults(&self, keep: impl Fn(&str) -> io::Result<()>) -> io::Result<Vec<String>> {
        let tried = self.kept.tried(&self.edit.iter().collect::<Vec<&Wrong>>())?;
        keep(&tried.said)?;
        if tried.is_proved {
            return Ok(vec!["NOT REFUSED: the crate is still proved with it".into()]);
        }
        let mut all = Vec::new();
        let mut expected: BTreeSet<String> = self.edit.iter().flat_map(|wrong| wrong.refused.clone()).collect();
        for wrong in self.edit {
            let (function, names) = (wrong.function(self.source), wrong.refused.join(" "));
            match &function {
                Some(name) if !wrong.refused.contains(name) => {
                    all.push(format!("this place stands in {name}, and {names} is named for it: {}", wrong.old.trim()))
                }
                None if self.edit.len() > 1 => {
                    all.push(format!("a place in no function is an edit by itself: {}", wrong.old.trim()))
                }
                _ => all.extend(self.faults_of(wrong, &tried, &keep)?),
            }
            expected.extend(function);
        }
        let others = tried.changed.iter().filter(|name| !expected.contains(*name));
        all.extend(others.map(|name| format!("{name} is changed too, and no `# refused: ` line names it")));
        Ok(all)
    }

    /// What is amiss with one wrong answer. Where another one of the edit keeps
    /// the prover from its goals, as of a function that it calls and that fell,
    /// it is tried by itself.
    fn faults_of(
        &self,
        wrong: &Wrong,
        tried: &Tried,
        keep: &impl Fn(&str) -> io::Result<()>,
    ) -> io::Result<Vec<String>> {
        let amiss: Vec<String> = wrong.refused.iter().filter_map(|name| self.misfit(name, tried)).collect();
        if !amiss.is_empty() || wrong.refused.iter().all(|name| tried.refused.contains(name)) {
            return Ok(amiss);
        }
        let alone = match self.edit.len() {
            1 => None,
            _ => Some(self.kept.tried(&[wrong])?),
        };
        if let Some(alone) = &alone {
            keep(&alone.said)?;
            if alone.is_proved {
                let names = wrong.refused.join(" ");
                return Ok(vec![format!("{names}: NOT REFUSED: the crate is still proved with this place alone")]);
            }
        }
        let tried = alone.as_ref().unwrap_or(tried);
        let names = wrong.refused.iter().filter(|name| !tried.refused.contains(*name));
        Ok(names.map(|name| not_refused(name, tried)).collect())
    }

    /// Why a function's refusal would say nothing, if so.
    fn misfit(&self, name: &str, tried: &Tried) -> Option<String> {
        if let (Some(before), Some(after)) = (self.kept.before(name), tried.after.get(name)) {
            if before.shape != after.shape || self.by_hand(name) && before.steps != after.steps {
                return Some(format!(
                    "{name} has another shape, so that its proof no longer fits: change a value or a comparison"
                ));
            }
            if let Some(other) = self.promised_otherwise(tried).find(|other| *other != name && self.calls(after, other))
            {
                return Some(format!(
                    "{name} may fall because of what {other} promises, which it calls: not in one edit"
                ));
            }
        }
        if !self.kept.has_function(name) && !name.contains('.') {
            return Some(format!("there is no function {name}; a law is named FILE.LAW"));
        }
        None
    }

    /// Where Rattle writes a part of a proof, the other part names it: `tie`.
    fn by_hand(&self, name: &str) -> bool {
        let proof = self.source.join("proofs").join(name).join("Proof.antt");
        fs::read_to_string(proof).is_ok_and(|proof| !proof.contains(".Tie"))
    }

    /// Functions whose contract is another and whose code is the same: what
    /// calls one of them may fall for that.
    fn promised_otherwise<'a>(&'a self, tried: &'a Tried) -> impl Iterator<Item = String> + 'a {
        let functions = self.edit.iter().filter_map(|wrong| wrong.function(self.source));
        functions.filter(|name| !tried.changed.contains(name))
    }

    fn calls(&self, function: &Lowered, other: &str) -> bool {
        function.calls.contains(&format!("{}/{other}", self.crate_name))
    }
}

fn not_refused(name: &str, tried: &Tried) -> String {
    let (cases, others): (Vec<&String>, _) = tried.refused.iter().partition(|name| name.contains("Cases."));
    let all: Vec<&str> = cases.into_iter().chain(others).map(String::as_str).collect();
    format!("{name} is not refused for a fact of its own; refused are: {}", all.join(" "))
}
