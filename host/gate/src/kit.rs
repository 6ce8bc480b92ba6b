//! The kit's prover over one crate of a repository, with the words that rt
//! gives it.
use std::io;
use std::os::unix::process::ExitStatusExt;
use std::path::{Path, PathBuf};
use std::process::{Command, Output};
use std::sync::atomic::{AtomicUsize, Ordering};
use std::{env, fs, process};

/// A repository, the libraries of it that were proved, and the kit that proved
/// them.
pub struct Repository {
    pub root: PathBuf,
    kit: PathBuf,
    libraries: Scratch,
}

/// A line of crates.txt.
pub struct Listed {
    pub is_static: bool,
    /// The libraries that the crate names, those of the kit among them.
    pub below: Vec<String>,
}

pub fn listed(root: &Path, name: &str) -> io::Result<Listed> {
    let text = fs::read_to_string(root.join("crates.txt"))?;
    let lines = text.lines().map(|line| line.split('#').next().unwrap_or(""));
    for (head, below) in lines.filter_map(|line| line.split_once(':')) {
        let mut words = head.split_whitespace();
        if words.next() == Some(name) {
            let below = below.split_whitespace().map(String::from).collect();
            return Ok(Listed { is_static: words.any(|word| word == "staticlib"), below });
        }
    }
    Err(io::Error::other(format!("crates.txt lists no crate {name}")))
}

/// A folder outside the repository, which is no place for a second text of a
/// crate. It goes when it is dropped.
pub struct Scratch(pub PathBuf);

impl Scratch {
    pub fn new() -> io::Result<Self> {
        static MADE: AtomicUsize = AtomicUsize::new(0);
        let name = format!("cadraspes-gate-{}-{}", process::id(), MADE.fetch_add(1, Ordering::Relaxed));
        let folder = env::temp_dir().join(name);
        fs::create_dir_all(&folder)?;
        Ok(Scratch(folder))
    }
}

impl Drop for Scratch {
    fn drop(&mut self) {
        drop(fs::remove_dir_all(&self.0));
    }
}

impl Repository {
    /// The kit is the one whose guide rt names. The libraries that the crates
    /// stand on are those that `rt ci` proved of the sources as they are.
    pub fn new(root: &Path, names: &[String]) -> io::Result<Self> {
        let guide = String::from_utf8(Command::new("rt").arg("doc").output()?.stdout).map_err(io::Error::other)?;
        let kit = Path::new(guide.trim()).parent().ok_or(io::Error::other("rt names no guide"))?;
        let repository = Repository { root: root.into(), kit: kit.into(), libraries: Scratch::new()? };
        let mut stands_on_ours = Vec::new();
        for name in names.iter().map(|named| named.split_once('/').map_or(named.as_str(), |(name, _)| name)) {
            if listed(root, name)?.below.iter().any(|library| repository.source(library).is_dir()) {
                stands_on_ours.push(name);
            }
        }
        if !stands_on_ours.is_empty() {
            let tool = root.join("tools/proved-libraries");
            let output = Command::new(tool).arg(&repository.libraries.0).args(stands_on_ours).output()?;
            if !output.status.success() {
                let told = String::from_utf8_lossy(&output.stderr).into_owned();
                return Err(io::Error::other(format!("the libraries are not proved:\n{told}")));
            }
        }
        Ok(repository)
    }

    pub fn source(&self, name: &str) -> PathBuf {
        self.root.join("crates").join(name)
    }

    /// Runs `rattle check` on the library in a folder, as rt does, but for what
    /// `kept` has from an earlier check and is still up to date, which is not
    /// checked again. A check that was killed, most likely for memory, is run
    /// once more.
    fn rattle(&self, name: &str, folder: &Path, kept: &Path, more: &[String]) -> io::Result<Output> {
        let listed = listed(&self.root, name)?;
        let ours = &self.libraries.0;
        let of_kit = self.kit.join("rlibs");
        let shown = |path: &Path| path.display().to_string();
        let mut words = ["check", "--crate-name", name, "src/lib.rt"].map(String::from).to_vec();
        for library in ["std"].into_iter().chain(listed.below.iter().map(String::as_str)) {
            let folder = if self.source(library).is_dir() { ours } else { &of_kit };
            words.extend(["--extern".into(), format!("{library}={}", shown(&folder.join(format!("{library}.rlib"))))]);
        }
        for folder in [&of_kit, ours] {
            words.extend(["-L".into(), format!("dependency={}", shown(folder))]);
        }
        words.extend(["--antt-project".into(), shown(&self.kit.join("rattle/logic/antt-project.json"))]);
        words.extend(["--logic-built".into(), shown(&self.kit.join("logic_built"))]);
        words.extend(["--jobs", "1", "--links"].map(String::from));
        words.push(format!("{name}="));
        if listed.is_static {
            words.extend(["--crate-type", "staticlib"].map(String::from));
        }
        words.extend(["--incremental".into(), shown(kept)]);
        let run = || Command::new(self.kit.join("bin/rattle")).args(&words).args(more).current_dir(folder).output();
        let output = run()?;
        if output.status.signal() == Some(9) {
            return run();
        }
        Ok(output)
    }

    /// Whether the library in a folder is proved or refused, neither being an
    /// error, and what the prover said.
    pub fn check(&self, name: &str, folder: &Path, kept: &Path) -> io::Result<(bool, String)> {
        let output = self.rattle(name, folder, kept, &[])?;
        let said = told(&output);
        match output.status.code() {
            Some(0) => Ok((true, said)),
            Some(1) if said.contains("\nlogic=not-proved") => Ok((false, said)),
            _ => Err(io::Error::other(format!("it did not reach the prover: {}", first_error(&said)))),
        }
    }

    /// Writes what the kit makes of these functions of the library in a folder:
    /// their code as it lowers it, and the names of what their proofs speak of.
    /// A function is named as `words/flags`.
    pub fn made<'a>(
        &self,
        name: &str,
        folder: &Path,
        kept: &Path,
        functions: impl IntoIterator<Item = &'a String>,
        to: &Path,
    ) -> io::Result<PathBuf> {
        let mut words = vec!["--generated".to_string(), to.display().to_string()];
        for function in functions {
            words.extend(["--start".into(), function.replace('/', "::")]);
        }
        let made = to.join(format!("Rattle-{name}-proofs"));
        if words.len() > 2 {
            let output = self.rattle(name, folder, kept, &words)?;
            let said = told(&output);
            if !said.lines().any(|line| line.starts_with("generated=")) {
                return Err(io::Error::other(format!("it did not reach the prover: {}", first_error(&said))));
            }
        }
        Ok(made)
    }
}

fn told(output: &Output) -> String {
    String::from_utf8_lossy(&output.stdout).into_owned() + &String::from_utf8_lossy(&output.stderr)
}

fn first_error(said: &str) -> &str {
    said.lines().find(|line| line.contains("error")).or(said.lines().next()).unwrap_or("it said nothing")
}

/// The files of a folder and of all below it, by their paths in it.
pub fn files(folder: &Path) -> io::Result<Vec<PathBuf>> {
    let mut all = Vec::new();
    for entry in fs::read_dir(folder)? {
        let (path, name) = entry.map(|entry| (entry.path(), PathBuf::from(entry.file_name())))?;
        if path.is_dir() {
            all.extend(files(&path)?.into_iter().map(|file| name.join(file)));
        } else {
            all.push(name);
        }
    }
    all.sort();
    Ok(all)
}

/// Makes a folder anew, each file of it by `file`.
pub fn again(from: &Path, to: &Path, file: impl Fn(&Path, &Path) -> io::Result<()>) -> io::Result<()> {
    for name in files(from)? {
        let at = to.join(&name);
        fs::create_dir_all(at.parent().unwrap_or(to))?;
        file(&from.join(&name), &at)?;
    }
    Ok(())
}
