//! Finds the proved library for the feature `linked`: the file that `INKCAPPER_ARCHIVE` names, else
//! `target/host/libinkcapper.a` of the repository, which `bin/library` writes.

use std::env;
use std::path::PathBuf;

fn main() {
    println!("cargo:rerun-if-env-changed=INKCAPPER_ARCHIVE");
    if env::var_os("CARGO_FEATURE_LINKED").is_none() {
        return;
    }
    let repository = PathBuf::from(env::var("CARGO_MANIFEST_DIR").expect("cargo sets it")).join("../..");
    let archive = match env::var_os("INKCAPPER_ARCHIVE") {
        Some(named) => PathBuf::from(named),
        None => repository.join("target/host/libinkcapper.a"),
    };
    if !archive.is_file() {
        panic!("no proved library at {}: build it, or set INKCAPPER_ARCHIVE to the file", archive.display());
    }
    let archive = archive.canonicalize().expect("it is there");
    println!("cargo:rerun-if-changed={}", archive.display());
    println!("cargo:rustc-link-search=native={}", archive.parent().expect("a file").display());
    let file = archive.file_name().expect("a file").to_string_lossy().into_owned();
    println!("cargo:rustc-link-lib=static:+verbatim={file}");
}
