//! A wrong answer is a change of one place of a crate that the prover must
//! refuse, and because a fact fails, not because a proof no longer fits. rt
//! tries the edits of `must-fail/`, whether the crate is refused with each. This
//! tries them once more, and looks into what the prover says of each of their
//! places.
pub mod edit;
pub mod judge;
pub mod kept;
pub mod kit;
pub mod names;
pub mod passed;
pub mod said;
pub mod shape;

use edit::Wrong;
use judge::Judge;
use kept::Kept;
use kit::Repository;
use std::collections::{BTreeMap, BTreeSet};
use std::path::{Path, PathBuf};
use std::sync::atomic::{AtomicUsize, Ordering};
use std::sync::Mutex;
use std::time::Instant;
use std::{fs, io};

/// A crate with wrong answers, and what they are judged by.
struct Crate<'a> {
    repository: &'a Repository,
    name: &'a str,
    source: PathBuf,
    edits: Vec<PathBuf>,
    kept: Kept<'a>,
    seconds: f64,
}

/// What is said of one crate.
pub struct Report {
    pub name: String,
    pub edits: usize,
    pub wrong: usize,
    pub seconds: f64,
    pub faults: Vec<String>,
}

/// What was judged of one edit: how many wrong answers it has, and what is
/// amiss with them; and how long that took.
type Judged = (Result<(usize, Vec<String>), String>, f64);

impl<'a> Crate<'a> {
    /// The crate and its edits, or the one of `CRATE/EDIT`.
    fn new(repository: &'a Repository, named: &'a str) -> io::Result<Self> {
        let began = Instant::now();
        let (name, label) = named.split_once('/').map_or((named, None), |(name, label)| (name, Some(label)));
        let source = repository.source(name);
        let mut edits = kept::edits(&source).map_err(|error| io::Error::other(format!("{named}: {error}")))?;
        edits.retain(|path| label.is_none_or(|label| path.file_stem().is_some_and(|stem| stem == label)));
        if edits.is_empty() {
            return Err(io::Error::other(format!("there is no edit of {named}")));
        }
        let read = edits.iter().filter_map(|path| edit::read(&fs::read_to_string(path).ok()?).ok());
        let named_by = |wrong: &Wrong| wrong.refused.iter().cloned().chain(wrong.function(&source)).collect::<Vec<_>>();
        let functions: BTreeSet<String> = read.flatten().flat_map(|wrong| named_by(&wrong)).collect();
        let kept = Kept::new(repository, name, &functions)?;
        Ok(Crate { repository, name, source, edits, kept, seconds: began.elapsed().as_secs_f64() })
    }

    fn report(&self, judged: impl Iterator<Item = Judged>) -> Report {
        let (name, edits) = (self.name.to_string(), self.edits.len());
        let mut report = Report { name, edits, wrong: 0, seconds: self.seconds, faults: Vec::new() };
        for (path, (judged, seconds)) in self.edits.iter().zip(judged) {
            let (wrong, faults) = judged.unwrap_or_else(|fault| (0, vec![fault]));
            let shown = path.strip_prefix(&self.repository.root).unwrap_or(path).display();
            report.wrong += wrong;
            report.seconds += seconds;
            report.faults.extend(faults.iter().map(|fault| format!("{shown}: {fault}")));
        }
        report
    }

    fn judge(&self, path: &Path) -> Judged {
        let began = Instant::now();
        (self.judged(path), began.elapsed().as_secs_f64())
    }

    fn judged(&self, path: &Path) -> Result<(usize, Vec<String>), String> {
        let told = |error: io::Error| error.to_string();
        let edit = edit::read(&fs::read_to_string(path).map_err(told)?)?;
        let label = path.file_stem().map(|stem| stem.to_string_lossy().into_owned()).unwrap_or_default();
        let folder = self.repository.root.join("target/wrong-answers").join(self.name);
        let number = AtomicUsize::new(0);
        let keep = |said: &str| {
            fs::create_dir_all(&folder)?;
            let name = match number.fetch_add(1, Ordering::Relaxed) {
                0 => format!("{label}.log"),
                number => format!("{label}.{number}.log"),
            };
            fs::write(folder.join(name), said)
        };
        let judge = Judge { crate_name: self.name, source: &self.source, kept: &self.kept, edit: &edit };
        Ok((edit.len(), judge.faults(keep).map_err(told)?))
    }
}

/// Looks at every wrong answer of the crates named, or at those of an edit that
/// is named as `CRATE/EDIT`; a report for each name.
pub fn look(repository: &Repository, names: &[String]) -> io::Result<Vec<Report>> {
    let crates: Vec<Crate> = each(names, |name| Crate::new(repository, name)).into_iter().collect::<io::Result<_>>()?;
    let all: Vec<(&Crate, &PathBuf)> =
        crates.iter().flat_map(|one| one.edits.iter().map(move |path| (one, path))).collect();
    let mut judged = each(&all, |(one, path)| one.judge(path)).into_iter();
    Ok(crates.iter().map(|one| one.report(judged.by_ref().take(one.edits.len()))).collect())
}

/// The crates of a repository that have wrong answers.
pub fn crates(root: &Path) -> io::Result<Vec<String>> {
    let mut names = Vec::new();
    for entry in fs::read_dir(root.join("crates"))? {
        let entry = entry?;
        if entry.path().join("must-fail").is_dir() {
            names.push(entry.file_name().to_string_lossy().into_owned());
        }
    }
    names.sort();
    Ok(names)
}

/// What `run` gives for each, in their order, on all cores.
pub fn each<'a, T: Sync, R: Send>(items: &'a [T], run: impl Fn(&'a T) -> R + Sync) -> Vec<R> {
    let (next, done) = (AtomicUsize::new(0), Mutex::new(BTreeMap::new()));
    let work = || {
        while let Some((at, item)) =
            Some(next.fetch_add(1, Ordering::Relaxed)).and_then(|at| Some((at, items.get(at)?)))
        {
            let result = run(item);
            done.lock().expect("no thread stops in it").insert(at, result);
        }
    };
    std::thread::scope(|scope| {
        for _ in 0..std::thread::available_parallelism().map_or(1, usize::from) {
            scope.spawn(work);
        }
    });
    done.into_inner().expect("no thread stops in it").into_values().collect()
}
