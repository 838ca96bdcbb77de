//! What the report programs are held to is what the model says.

use std::path::PathBuf;

/// A file of a program of the repository.
fn stored(name: &str) -> Vec<u8> {
    let path = PathBuf::from(env!("CARGO_MANIFEST_DIR")).join("../../crates").join(name);
    std::fs::read(&path).unwrap_or_else(|e| panic!("{}: {e}", path.display()))
}

#[test]
fn noise() {
    assert_eq!(model::noise::lines().into_bytes(), stored("test_report_noise/stdout"));
}

#[test]
fn cases() {
    assert_eq!(
        model::case_reports(&stored("test_report_cases/stdin")).into_bytes(),
        stored("test_report_cases/stdout")
    );
}

#[test]
fn too_long() {
    assert_eq!(model::report(&stored("test_report_long/stdin")).into_bytes(), stored("test_report_long/stdout"));
}

#[test]
fn one_image() {
    assert_eq!(model::report(&stored("report/stdin")).into_bytes(), stored("report/stdout"));
}

/// The cases behind the others in `test_report_cases` are the first 30 of each kind of `test_report_noise`.
#[test]
fn the_same_noise() {
    let mut wanted = Vec::new();
    for kind in 0..model::noise::KINDS {
        let mut noise = model::noise::Noise::new(kind as u32);
        for _ in 0..30 {
            let case = model::noise::case(kind, 6, &mut noise);
            wanted.extend((case.len() as u32).to_le_bytes());
            wanted.extend(case);
        }
    }
    assert!(stored("test_report_cases/stdin").ends_with(&wanted));
}
