//! What earlier runs on this machine judged of a crate's wrong answers, none
//! of them amiss. It is found by the sum of all that the judgement stands on:
//! the kit, this program, and the sources of the crate and of those below it.
//! So whatever changes is tried anew, and the same is not tried twice.
use crate::kept::PARTS;
use crate::kit::{files, listed};
use std::collections::BTreeSet;
use std::io::{self, Write};
use std::path::{Path, PathBuf};
use std::process::{Command, Stdio};
use std::{env, fs};

/// This program's own text: where it is compiled says nothing of what it does.
const OURS: [&str; 9] = [
    include_str!("edit.rs"),
    include_str!("judge.rs"),
    include_str!("kept.rs"),
    include_str!("kit.rs"),
    include_str!("lib.rs"),
    include_str!("names.rs"),
    include_str!("passed.rs"),
    include_str!("said.rs"),
    include_str!("shape.rs"),
];

pub struct Passed {
    at: PathBuf,
    root: PathBuf,
    /// The kit's line, and this program's sum.
    by: String,
}

impl Passed {
    pub fn new(root: &Path) -> io::Result<Self> {
        let cache = env::var_os("XDG_CACHE_HOME").map(PathBuf::from);
        let home = env::var_os("HOME").map(|home| Path::new(&home).join(".cache"));
        let at = cache.or(home).ok_or(io::Error::other("there is no HOME"))?.join("cadraspes/wrong-answers");
        let kit = Command::new("rt").arg("version").output()?.stdout;
        let by = format!("{}{}", String::from_utf8_lossy(&kit), sum(&OURS.concat())?);
        Ok(Passed { at, root: root.into(), by })
    }

    /// The name under which it is kept that all wrong answers of a crate passed.
    pub fn key(&self, name: &str) -> io::Result<String> {
        let mut all = BTreeSet::from([name.to_string()]);
        let mut open = vec![name.to_string()];
        while let Some(name) = open.pop() {
            let ours = listed(&self.root, &name)?.below.into_iter().filter(|below| self.source(below).is_dir());
            open.extend(ours.filter(|below| all.insert(below.clone())));
        }
        let mut paths = vec![self.root.join("crates.txt")];
        for one in &all {
            let parts = PARTS.into_iter().chain((one == name).then_some("must-fail"));
            for part in parts.map(|part| self.source(one).join(part)).filter(|part| part.is_dir()) {
                paths.extend(files(&part)?.into_iter().map(|file| part.join(file)));
            }
        }
        let handles = self.root.join("HANDLES");
        paths.extend(handles.is_file().then_some(handles));
        let shown = sums(&paths)?.replace(&self.root.display().to_string(), "");
        sum(&format!("{name}\n{}{shown}", self.by))
    }

    /// How many edits and wrong answers passed, where they did.
    pub fn told(&self, key: &str) -> Option<(usize, usize)> {
        let text = fs::read_to_string(self.at.join(key)).ok()?;
        let mut numbers = text.split_whitespace().map(str::parse::<usize>);
        match (numbers.next(), numbers.next(), numbers.next()) {
            (Some(Ok(edits)), Some(Ok(wrong)), None) => Some((edits, wrong)),
            _ => None,
        }
    }

    pub fn keep(&self, key: &str, edits: usize, wrong: usize) -> io::Result<()> {
        fs::create_dir_all(&self.at)?;
        let new = self.at.join(format!("new-{}", std::process::id()));
        fs::write(&new, format!("{edits} {wrong}\n"))?;
        fs::rename(new, self.at.join(key))
    }

    fn source(&self, name: &str) -> PathBuf {
        self.root.join("crates").join(name)
    }
}

/// A line for each file, of its sum and its path.
fn sums(paths: &[PathBuf]) -> io::Result<String> {
    let output = Command::new("sha256sum").arg("--").args(paths).output()?;
    match output.status.success() {
        true => String::from_utf8(output.stdout).map_err(io::Error::other),
        false => Err(io::Error::other(String::from_utf8_lossy(&output.stderr).into_owned())),
    }
}

fn sum(text: &str) -> io::Result<String> {
    let mut run = Command::new("sha256sum").stdin(Stdio::piped()).stdout(Stdio::piped()).spawn()?;
    run.stdin.take().expect("it is a pipe").write_all(text.as_bytes())?;
    let output = run.wait_with_output()?;
    let said = String::from_utf8_lossy(&output.stdout).into_owned();
    said.split_whitespace().next().map(String::from).ok_or(io::Error::other("sha256sum gives no sum"))
}
