//! Points the crate at the original's files, which are compiled where they
//! lie, unchanged, and sets `at_hand` if they are there. Package
//! `original-journal` shares this file and the sources; for it alone one line
//! of cache.rs, the value of JOURNAL_CAPACITY, is replaced, so that histories
//! with another journal room can be run.
use std::path::{Path, PathBuf};
use std::{env, fs};

const FILES: [(&str, &str, &[&str]); 2] = [
    ("miner", "modality-datastore/src/models/miner", &["miner_block", "cache", "tree"]),
    ("chain", "modality-node/src/chain", &["fork_choice", "tree_choice"]),
];

/// The first of the files that a folder lacks.
fn missing(folder: &Path) -> Option<PathBuf> {
    let files = FILES.iter().flat_map(|(_, path, names)| names.iter().map(move |name| (path, name)));
    let mut paths = files.map(|(path, name)| folder.join("rust").join(path).join(format!("{name}.rs")));
    paths.find(|path| !path.is_file())
}

/// The checkout that MODALITY_SRC names, which must have the files; else
/// docs/src or shared/docs/src in a folder above or beside one. Where none has
/// them, they are looked for again at the next build.
fn source() -> Option<PathBuf> {
    println!("cargo:rerun-if-env-changed=MODALITY_SRC");
    if let Some(folder) = env::var_os("MODALITY_SRC").map(PathBuf::from) {
        if let Some(file) = missing(&folder) {
            eprintln!("MODALITY_SRC names no checkout of the original: there is no {}", file.display());
            std::process::exit(1);
        }
        return Some(folder);
    }
    let here = env::var("CARGO_MANIFEST_DIR").expect("set by cargo");
    let above = Path::new(&here).ancestors();
    let places: Vec<PathBuf> =
        above.flat_map(|folder| [folder.join("docs/src"), folder.join("shared/docs/src")]).collect();
    let found = places.iter().find(|folder| missing(folder).is_none()).cloned();
    if found.is_none() {
        places.iter().for_each(|folder| println!("cargo:rerun-if-changed={}", folder.display()));
    }
    found
}

/// cache.rs with its constant replaced by one that reads the room set.
fn with_journal_room(path: &Path, out: &Path) -> PathBuf {
    const LINE: &str = "\nconst JOURNAL_CAPACITY: usize = 200_000;\n";
    const ROOM: &str = "\nconst JOURNAL_CAPACITY: crate::JournalRoom = crate::JournalRoom;\n";
    let text = fs::read_to_string(path).expect("cache.rs is a text");
    assert_eq!(text.matches(LINE).count(), 1, "cache.rs has its one line of JOURNAL_CAPACITY");
    let changed = out.join("cache.rs");
    fs::write(&changed, text.replace(LINE, ROOM)).expect("OUT_DIR can be written");
    changed
}

fn main() {
    println!("cargo:rerun-if-changed=../original/build.rs");
    println!("cargo:rustc-check-cfg=cfg(at_hand)");
    let Some(source) = source() else {
        return;
    };
    println!("cargo:rustc-cfg=at_hand");
    println!("cargo:rustc-env=ORIGINAL_SOURCES={}", source.display());
    let out = PathBuf::from(env::var("OUT_DIR").expect("set by cargo"));
    let journal = env::var("CARGO_PKG_NAME").is_ok_and(|name| name == "original-journal");
    for (module, folder, names) in FILES {
        let line = |name: &&str| {
            let path = source.join("rust").join(folder).join(format!("{name}.rs"));
            println!("cargo:rerun-if-changed={}", path.display());
            let path = if journal && *name == "cache" { with_journal_room(&path, &out) } else { path };
            format!("#[path = {path:?}]\npub mod {name};\n")
        };
        let lines: String = names.iter().map(line).collect();
        fs::write(out.join(format!("{module}.rs")), lines).expect("OUT_DIR can be written");
    }
}
