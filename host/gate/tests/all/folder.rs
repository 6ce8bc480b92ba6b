//! A folder of a test's own.
use std::path::{Path, PathBuf};
use std::process::Command;
use std::{env, fs, process};

pub struct Folder(pub PathBuf);

impl Folder {
    /// An empty folder; no other test has the name.
    pub fn new(name: &str) -> Self {
        let folder = env::temp_dir().join(format!("cadraspes-gate-{}-{name}", process::id()));
        fs::create_dir_all(&folder).expect("a folder for a test");
        Folder(folder)
    }

    pub fn write(&self, file: &str, text: &str) {
        let path = self.0.join(file);
        fs::create_dir_all(path.parent().expect("it stands in the folder")).expect("a folder in the folder");
        fs::write(path, text).expect("a file in the folder");
    }

    /// A copy of a tool, over this folder instead of the repository. (bash reads
    /// it: a file just written cannot always be run while others start programs.)
    pub fn tool(&self, name: &str) -> Command {
        self.write(&format!("tools/{name}"), "");
        let copy = self.0.join("tools").join(name);
        fs::copy(root().join("tools").join(name), &copy).expect("a tool of the repository");
        let mut bash = Command::new("bash");
        bash.arg(copy);
        bash
    }
}

impl Drop for Folder {
    fn drop(&mut self) {
        drop(fs::remove_dir_all(&self.0));
    }
}

/// The repository.
pub fn root() -> PathBuf {
    Path::new(env!("CARGO_MANIFEST_DIR")).join("../..")
}
