//! The stored answers for the programs of vectors are what `record` writes.
#![cfg_attr(not(oracle), allow(unused))]
#[macro_use]
mod common;

use std::path::Path;

#[test]
#[cfg_attr(not(oracle), ignore = "the Rust source is absent")]
fn stored_answers_are_those_of_the_rust() {
    with_oracle!({
        let crates = Path::new(env!("CARGO_MANIFEST_DIR")).join("../crates");
        for (name, text) in harness::record::all() {
            let stored = std::fs::read_to_string(crates.join(name).join("stdout")).unwrap();
            assert!(stored == text, "{name}: run `record` and see what differs");
            assert!(text.len() < 100_000, "{name}");
        }
        for (path, bytes) in harness::record::data() {
            let stored = std::fs::read(crates.join(&path)).unwrap();
            assert!(stored == bytes, "{path}: run `record` and see what differs");
        }
    });
}
