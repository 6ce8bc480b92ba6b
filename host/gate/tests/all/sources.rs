//! Where the original's sources are looked for, and which they are.
use crate::folder::{root, Folder};
use gate::kit::again;
use std::fs;
use std::path::Path;
use std::process::{Command, Output};

const FILES: [&str; 5] = [
    "modality-datastore/src/models/miner/miner_block.rs",
    "modality-datastore/src/models/miner/cache.rs",
    "modality-datastore/src/models/miner/tree.rs",
    "modality-node/src/chain/fork_choice.rs",
    "modality-node/src/chain/tree_choice.rs",
];

/// The package `original` in a folder where no sources are.
fn packages(name: &str) -> Folder {
    let folder = Folder::new(name);
    let members = ["history", "shims", "shim-macros", "original"];
    folder.write("host/Cargo.toml", &format!("[workspace]\nresolver = \"2\"\nmembers = {members:?}\n"));
    for member in members {
        let copied = |from: &Path, to: &Path| fs::copy(from, to).map(drop);
        again(&root().join("host").join(member), &folder.0.join("host").join(member), copied).expect("a package");
    }
    folder
}

fn build(folder: &Folder, named: Option<&str>) -> Output {
    let mut cargo = Command::new(env!("CARGO"));
    cargo.args(["check", "--offline", "--quiet", "-p", "original"]).current_dir(folder.0.join("host"));
    cargo.env_remove("MODALITY_SRC").env("CARGO_TARGET_DIR", folder.0.join("target"));
    cargo.envs(named.map(|folder| ("MODALITY_SRC", folder))).output().expect("cargo")
}

#[test]
fn a_wrong_folder_is_an_error() {
    let folder = packages("named");
    assert!(build(&folder, None).status.success(), "none at hand, none named");
    let output = build(&folder, Some("/nowhere"));
    let told = String::from_utf8_lossy(&output.stderr).into_owned();
    assert!(!output.status.success() && told.contains("MODALITY_SRC names no checkout of the original"), "{told}");
}

/// Empty files do not compile, so that they were found is seen.
#[test]
fn sources_that_appear_later_are_found() {
    let folder = packages("later");
    assert!(build(&folder, None).status.success(), "none at hand");
    for file in FILES {
        folder.write(&format!("docs/src/rust/{file}"), "");
    }
    assert!(!build(&folder, None).status.success(), "cache.rs is empty");
}

#[test]
fn other_files_than_the_commits_are_an_error() {
    let folder = Folder::new("others");
    let digests = fs::read_to_string(root().join("host/original/sources.sha256")).expect("the digests");
    folder.write("host/original/sources.sha256", &digests);
    for file in FILES {
        assert!(digests.contains(file), "{file}");
        folder.write(&format!("docs/src/rust/{file}"), "");
    }
    let told = |args: &[&str]| folder.tool("original").args(args).output().expect("bash");
    assert!(!told(&[&folder.0.join("docs/src").display().to_string()]).status.success());
    let none = told(&[""]);
    assert!(none.status.success() && String::from_utf8_lossy(&none.stdout).starts_with("original: NOT at hand"));
}
