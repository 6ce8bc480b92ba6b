//! Links the library that `tools/native-staticlib cadraspes` makes, and sets
//! `linked` if it is there.
use std::env;
use std::path::PathBuf;

/// The folder that CADRASPES_LIB names, else target/staticlib of the
/// repository.
fn folder() -> PathBuf {
    println!("cargo:rerun-if-env-changed=CADRASPES_LIB");
    let here = PathBuf::from(env::var("CARGO_MANIFEST_DIR").expect("set by cargo"));
    env::var("CADRASPES_LIB").map_or(here.join("../../target/staticlib"), PathBuf::from)
}

fn main() {
    println!("cargo:rustc-check-cfg=cfg(linked)");
    println!("cargo:rerun-if-changed=build.rs");
    let (folder, archive) = (folder(), folder().join("libcadraspes.a"));
    println!("cargo:rerun-if-changed={}", archive.display());
    // for the test that links it to a program of C
    println!("cargo:rustc-env=CADRASPES_ARCHIVE={}", archive.display());
    if !archive.is_file() {
        println!("cargo:warning={} is not there: run tools/native-staticlib cadraspes", archive.display());
        return;
    }
    println!("cargo:rustc-cfg=linked");
    println!("cargo:rustc-link-search=native={}", folder.display());
    println!("cargo:rustc-link-lib=static=cadraspes");
}
