//! The recorded histories, and their answers by the original.
use std::path::{Path, PathBuf};

/// histories/
pub fn folder() -> PathBuf {
    Path::new(env!("CARGO_MANIFEST_DIR")).join("../../histories")
}

/// All histories, in order.
pub fn all() -> Vec<PathBuf> {
    let mut files = Vec::new();
    below(&folder(), &mut files);
    files.sort();
    assert!(files.len() >= 140, "only {} histories", files.len());
    files
}

fn below(folder: &Path, files: &mut Vec<PathBuf>) {
    for entry in std::fs::read_dir(folder).expect("histories/ lies beside host/") {
        let path = entry.expect("a folder that can be read").path();
        match path.extension() {
            _ if path.is_dir() => below(&path, files),
            Some(extension) if extension == "txt" => files.push(path),
            _ => (),
        }
    }
}

pub fn text(file: &Path) -> Vec<u8> {
    std::fs::read(file).unwrap_or_else(|error| panic!("{}: {error}", file.display()))
}
