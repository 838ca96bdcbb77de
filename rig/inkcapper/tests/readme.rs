//! README's Rust is what is tested here: its texts are these files', and they run.

#[cfg(not(feature = "linked"))]
extern crate c_names;

mod glue {
    include!("readme/glue.rs");

    #[test]
    fn it_runs() {
        assert_eq!(main(), Ok(()));
    }
}

mod list {
    include!("readme/list.rs");

    #[test]
    fn it_runs() {
        assert_eq!(main(), Ok(()));
    }
}

#[test]
fn readme_has_the_same_texts() {
    let readme = std::fs::read_to_string(concat!(env!("CARGO_MANIFEST_DIR"), "/../../README.md")).expect("README.md");
    let shown: Vec<&str> = readme.split("```rust\n").skip(1).filter_map(|rest| rest.split("```").next()).collect();
    assert_eq!(shown, [include_str!("readme/glue.rs"), include_str!("readme/list.rs")]);
}
