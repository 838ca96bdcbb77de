//! The C header, the Rust declarations and the exported functions of the crate `inkcapper` say the same:
//! the same functions, and for each parameters of the same types in the same order; header and Rust
//! declarations have the same names for them too. Header and crate have the same version and the same limits.

use std::collections::BTreeMap;
use std::path::{Path, PathBuf};

#[cfg(not(feature = "linked"))]
extern crate c_names;

type Functions = BTreeMap<String, Vec<(String, String)>>;

/// The text between `open` and the next `close`, with all white space made single spaces.
fn inside(text: &str, open: char, close: char) -> String {
    let from = text.find(open).expect("it opens") + 1;
    let to = from + text[from..].find(close).expect("it closes");
    text[from..to].split_whitespace().collect::<Vec<_>>().join(" ")
}

/// C parameters, their types put into Rust's words.
fn of_header(text: &str) -> Functions {
    let mut functions = Functions::new();
    for declaration in text.split("\nuint32_t ").skip(1) {
        let name = declaration[..declaration.find('(').expect("parameters")].to_string();
        let parameters = inside(declaration, '(', ')')
            .split(", ")
            .map(|parameter| {
                let at = parameter.rfind([' ', '*']).expect("a type and a name") + 1;
                let (ty, name) = (parameter[..at].trim(), &parameter[at..]);
                let ty = match ty {
                    "const uint32_t *" => "*const u32",
                    "uint32_t *" => "*mut u32",
                    "const uint8_t *" => "*const u8",
                    "uint8_t *" => "*mut u8",
                    "const double *" => "*const f64",
                    "double *" => "*mut f64",
                    "size_t" => "usize",
                    "uint32_t" => "u32",
                    "uint64_t" if name == "values[3]" => "Values",
                    other => panic!("{other} is no type of the boundary"),
                };
                (name.trim_end_matches("[3]").to_string(), ty.to_string())
            })
            .collect();
        functions.insert(name, parameters);
    }
    functions
}

/// Rust parameters, `pub fn name(..)` or `name name => (..)`.
fn of_rust(text: &str) -> Functions {
    let parameters = |text: &str| -> Vec<(String, String)> {
        inside(text, '(', ')')
            .split(',')
            .filter(|parameter| !parameter.trim().is_empty())
            .map(|parameter| {
                let (name, ty) = parameter.split_once(':').expect("a name and a type");
                (name.trim().to_string(), ty.trim().to_string())
            })
            .collect()
    };
    let mut functions = Functions::new();
    for declaration in text.split("pub fn inkcapper_").skip(1) {
        let name = &declaration[..declaration.find('(').expect("parameters")];
        functions.insert(format!("inkcapper_{name}"), parameters(declaration));
    }
    for group in text.split("alike! {").skip(1) {
        let (names, rest) = group.split_once("=>").expect("names and parameters");
        for name in names.split_whitespace() {
            functions.insert(name.to_string(), parameters(rest));
        }
    }
    functions
}

/// Parameters of an exported function: a slice crosses as a pointer and a length.
fn of_exports(text: &str) -> Functions {
    let mut functions = Functions::new();
    for declaration in text.split("#[unsafe(no_mangle)]\npub extern \"C\" fn ").skip(1) {
        let name = declaration[..declaration.find('(').expect("parameters")].to_string();
        let mut parameters = Vec::new();
        let listed = inside(declaration, '(', ')');
        for parameter in listed.split(',').map(str::trim).filter(|parameter| !parameter.is_empty()) {
            let (name, ty) = parameter.split_once(": ").expect("a name and a type");
            let slice = |ty: &str| (name.to_string(), ty.to_string());
            match ty {
                "&mut [u64; 3]" => parameters.push(slice("Values")),
                "u32" => parameters.push(slice("u32")),
                _ => {
                    let pointer = match ty {
                        "&[u32]" => "*const u32",
                        "&mut [u32]" => "*mut u32",
                        "&[u8]" => "*const u8",
                        "&mut [u8]" => "*mut u8",
                        "&[f64]" => "*const f64",
                        "&mut [f64]" => "*mut f64",
                        other => panic!("{other} is no type of the boundary"),
                    };
                    parameters.push(slice(pointer));
                    parameters.push((format!("{name}_len"), "usize".to_string()));
                }
            }
        }
        functions.insert(name, parameters);
    }
    functions
}

fn repository() -> PathBuf {
    Path::new(env!("CARGO_MANIFEST_DIR")).join("../..")
}

fn header_text() -> String {
    std::fs::read_to_string(repository().join("include/inkcapper.h")).expect("include/inkcapper.h")
}

fn header() -> Functions {
    of_header(&header_text())
}

/// The number that the header defines under a name.
fn defined(name: &str) -> Option<usize> {
    let text = header_text();
    let (_, behind) = text.split_once(&format!("#define INKCAPPER_{name} "))?;
    behind.lines().next()?.parse().ok()
}

#[test]
fn header_and_crate_have_one_version() {
    assert_eq!(defined("VERSION"), Some(inkcapper::VERSION as usize));
    assert_eq!(env!("CARGO_PKG_VERSION"), format!("0.{}.0", inkcapper::VERSION));
    // raised since a plan's entries have six numbers
    assert_eq!(inkcapper::VERSION, 5);
}

#[test]
fn header_and_crate_have_the_same_limits() {
    assert_eq!(defined("MOST_DARTS"), Some(inkcapper::MOST_DARTS));
    assert_eq!(defined("ENTRY_NUMBERS"), Some(inkcapper::ENTRY_NUMBERS));
}

#[test]
fn header_and_declarations_agree() {
    assert_eq!(header(), of_rust(include_str!("../src/ffi.rs")));
}

#[test]
fn header_and_exports_agree() {
    let mut exports = Functions::new();
    for file in std::fs::read_dir(repository().join("crates/inkcapper_c/src")).expect("the crate inkcapper_c") {
        let text = std::fs::read_to_string(file.expect("a file").path()).expect("a text");
        exports.extend(of_exports(&text));
    }
    assert!(!exports.is_empty());
    let types = |functions: Functions| -> BTreeMap<String, Vec<String>> {
        functions.into_iter().map(|(name, of)| (name, of.into_iter().map(|(_, ty)| ty).collect())).collect()
    };
    assert_eq!(types(header()), types(exports));
}
