//! Lays the module tree (tree.rs) over the published text where that text stands.
//!
//! The text is compiled from its own folder and never copied. Its folder is the one that
//! `INKCAPPER_HONEYCOMB` names, else `../shared/docs/src` beside the repository. A file that is not
//! the published one, byte for byte, ends the build: an oracle of another text is no oracle.

use std::path::{Path, PathBuf};
use std::{env, fs};

/// The files compiled, with length and FNV-1a hash of the text at 66d988ff43.
const TEXT: [(&str, usize, u64); 16] = include!("text.in");

fn fnv1a(bytes: &[u8]) -> u64 {
    bytes.iter().fold(0xcbf2_9ce4_8422_2325, |h, &b| (h ^ u64::from(b)).wrapping_mul(0x0000_0100_0000_01b3))
}

fn main() {
    println!("cargo:rerun-if-env-changed=INKCAPPER_HONEYCOMB");
    println!("cargo:rerun-if-changed=tree.rs");
    println!("cargo:rerun-if-changed=text.in");
    let here = PathBuf::from(env::var("CARGO_MANIFEST_DIR").expect("cargo sets it"));
    let named = env::var_os("INKCAPPER_HONEYCOMB").map(PathBuf::from);
    let folder = named.unwrap_or_else(|| here.join("../../../shared/docs/src"));
    let source = match fs::canonicalize(folder.join("honeycomb-core/src")) {
        Ok(path) => path,
        Err(e) => panic!(
            "no honeycomb-core/src under {} ({e}): set INKCAPPER_HONEYCOMB to the folder that holds honeycomb-core",
            folder.display()
        ),
    };
    let mut report = String::from("[\n");
    for (file, length, hash) in TEXT {
        let path = source.join(file);
        println!("cargo:rerun-if-changed={}", path.display());
        let bytes = fs::read(&path).unwrap_or_else(|e| panic!("{}: {e}", path.display()));
        if (bytes.len(), fnv1a(&bytes)) != (length, hash) {
            panic!(
                "{} is not the published text: {} bytes, hash {:#018x}, where {length} and {hash:#018x} are expected",
                path.display(),
                bytes.len(),
                fnv1a(&bytes)
            );
        }
        report.push_str(&format!("    ({file:?}, {length}, {hash:#018x}),\n"));
    }
    report.push_str("]\n");
    let tree = fs::read_to_string("tree.rs")
        .expect("tree.rs")
        .replace("HONEYCOMB/", &format!("{}/", slashes(&source)))
        .replace("HERE/", &format!("{}/src/", slashes(&here)));
    let out = PathBuf::from(env::var_os("OUT_DIR").expect("cargo sets it"));
    fs::write(out.join("tree.rs"), tree).expect("OUT_DIR is writable");
    fs::write(out.join("text.rs"), report).expect("OUT_DIR is writable");
}

/// A path as it may stand in a Rust string.
fn slashes(path: &Path) -> String {
    path.display().to_string().replace('\\', "/")
}
