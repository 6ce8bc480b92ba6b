//! Edits of a crate, each tried over what was kept of a check of the crate as
//! it is: only what the edit can reach is checked again.
use crate::edit::{applied, Wrong};
use crate::kit::{again, files, Repository, Scratch};
use crate::names::{exchanged, renamed};
use crate::said::refused;
use crate::shape::{lowered, Lowered};
use std::collections::{BTreeMap, BTreeSet};
use std::ffi::OsStr;
use std::path::{Path, PathBuf};
use std::{fs, io};

/// The folders of a crate that a check reads.
pub const PARTS: [&str; 3] = ["src", "specs", "proofs"];

/// A crate whose check was kept.
pub struct Kept<'a> {
    repository: &'a Repository,
    name: &'a str,
    folder: Scratch,
    /// The code of each function as it was kept, by what tells that it is made
    /// anew.
    code: BTreeMap<String, Mark>,
    /// The functions that edits name, as they are, and where the kit wrote what
    /// it makes of them.
    before: BTreeMap<String, Lowered>,
    made: PathBuf,
}

/// What became of a crate with an edit.
pub struct Tried {
    /// The functions that the edit names or that it changes, as they are with
    /// it.
    pub after: BTreeMap<String, Lowered>,
    /// Those that it changes.
    pub changed: BTreeSet<String>,
    pub is_proved: bool,
    pub said: String,
    pub refused: BTreeSet<String>,
}

type Mark = Vec<u8>;

impl<'a> Kept<'a> {
    /// Checks the crate as it is; it must be proved.
    pub fn new(repository: &'a Repository, name: &'a str, named: &BTreeSet<String>) -> io::Result<Self> {
        let folder = Scratch::new()?;
        let (source, kept) = (repository.source(name), folder.0.join("kept"));
        fs::create_dir_all(&kept)?;
        let (is_proved, said) = repository.check(name, &source, &kept)?;
        if !is_proved {
            return Err(io::Error::other(format!("{name} is not proved as it is:\n{said}")));
        }
        let code = code_of(name, &kept)?;
        let of_ours: BTreeSet<&String> = named.iter().filter(|name| code.contains_key(*name)).collect();
        let made = repository.made(name, &source, &kept, of_ours.iter().copied(), &folder.0.join("made"))?;
        let before = of_ours.into_iter().map(|name| Ok((name.clone(), lowered(&made.join(name))?)));
        let before = before.collect::<io::Result<_>>()?;
        Ok(Kept { repository, name, folder, code, before, made })
    }

    /// A function that edits name, as it is.
    pub fn before(&self, name: &str) -> Option<&Lowered> {
        self.before.get(name)
    }

    pub fn has_function(&self, name: &str) -> bool {
        self.code.contains_key(name)
    }

    /// Tries some of an edit's wrong answers on a copy of the crate. Where the
    /// kit names something otherwise in a function of the same shape, the copy's
    /// written proof has the other name.
    pub fn tried(&self, edit: &[&Wrong]) -> io::Result<Tried> {
        let (room, source) = (Scratch::new()?, self.source());
        let (copied, kept) = (room.0.join("crate"), room.0.join("kept"));
        for part in PARTS.iter().filter(|part| source.join(part).is_dir()) {
            again(&source.join(part), &copied.join(part), |from, to| fs::copy(from, to).map(drop))?;
        }
        for (file, text) in applied(edit, &source).map_err(io::Error::other)? {
            fs::write(copied.join(file), text)?;
        }
        // links, since a check puts new files in the place of those that no longer fit, and changes none
        again(&self.folder.0.join("kept"), &kept, |from, to| fs::hard_link(from, to))?;
        let is_code = edit.iter().any(|wrong| wrong.file.starts_with("src/"));
        let mut after = BTreeMap::new();
        if is_code {
            let of_edit = edit.iter().flat_map(|wrong| wrong.refused.iter().cloned().chain(wrong.function(&source)));
            let named: BTreeSet<String> = of_edit.filter(|name| self.before.contains_key(name)).collect();
            let made = self.repository.made(self.name, &copied, &kept, &named, &room.0.join("made"))?;
            for name in named {
                self.rename(&name, &made.join(&name), &copied)?;
                after.insert(name.clone(), lowered(&made.join(&name))?);
            }
        }
        let (is_proved, said) = self.repository.check(self.name, &copied, &kept)?;
        let changed = self.changed(&copied, &kept, &mut after, &room)?;
        let refused = refused(&said, &copied);
        Ok(Tried { after, changed, is_proved, said, refused })
    }

    /// Gives the written proof of a function the names that the kit has with the
    /// edit.
    fn rename(&self, name: &str, made: &Path, copied: &Path) -> io::Result<()> {
        let renamed = renamed(&self.made.join(name), made);
        for file in ["Invariants.antt", "Answers.antt"] {
            let proof = copied.join("proofs").join(name).join(file);
            if !renamed.is_empty() && proof.is_file() {
                fs::write(&proof, exchanged(&fs::read_to_string(&proof)?, &renamed))?;
            }
        }
        Ok(())
    }

    /// The functions whose code is another. Where a check made the code of one
    /// anew that the edit does not name, it is compared.
    fn changed(
        &self,
        copied: &Path,
        kept: &Path,
        after: &mut BTreeMap<String, Lowered>,
        room: &Scratch,
    ) -> io::Result<BTreeSet<String>> {
        let code = code_of(self.name, kept)?;
        let anew = code.into_iter().filter(|(name, mark)| self.code.get(name) != Some(mark)).map(|(name, _)| name);
        let (mut changed, mut others) = (BTreeSet::new(), BTreeSet::new());
        for name in anew.filter(|name| !after.contains_key(name)) {
            match self.code.contains_key(&name) {
                true => others.insert(name),
                false => changed.insert(name),
            };
        }
        if !others.is_empty() {
            let (was, is) = (room.0.join("others-before"), room.0.join("others-after"));
            let was = self.repository.made(self.name, &self.source(), &self.folder.0.join("kept"), &others, &was)?;
            let is = self.repository.made(self.name, copied, kept, &others, &is)?;
            for name in others {
                let now = lowered(&is.join(&name))?;
                if now != lowered(&was.join(&name))? {
                    changed.insert(name.clone());
                }
                after.insert(name, now);
            }
        }
        let own = after.iter().filter(|(name, now)| self.before(name).is_some_and(|before| before != *now));
        changed.extend(own.map(|(name, _)| name.clone()));
        Ok(changed)
    }

    fn source(&self) -> PathBuf {
        self.repository.source(self.name)
    }
}

/// What was kept of the code of each function of a crate.
fn code_of(name: &str, kept: &Path) -> io::Result<BTreeMap<String, Mark>> {
    let mut all = BTreeMap::new();
    for file in files(kept)? {
        let shown = file.file_name().and_then(OsStr::to_str).unwrap_or("");
        let function =
            shown.strip_prefix(&format!("Rattle-{name}-proofs.")).and_then(|rest| rest.strip_suffix(".Code.Mir.oantt"));
        if let Some(function) = function {
            all.insert(function.replace('.', "/"), fs::read(kept.join(&file))?);
        }
    }
    Ok(all)
}

/// The edits of a crate. Nothing else may stand in must-fail/: nobody would try
/// it.
pub fn edits(source: &Path) -> io::Result<Vec<PathBuf>> {
    let folder = source.join("must-fail");
    let mut all = Vec::new();
    for file in files(&folder)? {
        let path = folder.join(&file);
        match (file.parent().and_then(Path::to_str), path.extension().and_then(OsStr::to_str)) {
            (Some(""), Some("edit")) => all.push(path),
            _ => return Err(io::Error::other(format!("{} is no edit that is tried", path.display()))),
        }
    }
    Ok(all)
}
