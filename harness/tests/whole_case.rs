//! Document 01's whole case, through its ten files.
#![cfg_attr(not(oracle), allow(unused))]
#[macro_use]
mod common;

use common::*;
use harness::case::{Case, FILE_LIMIT};
use harness::query::Node;
use std::fs;
use std::path::Path;
use std::process::Command;

const EXPECTED: &str = "count 3\n2 40400000\n0 3f800000\n";

/// What `oracle` prints, and whether it succeeded.
fn program(arguments: &[&str], folder: &Path) -> (String, bool) {
    let mut command = Command::new(env!("CARGO_BIN_EXE_oracle"));
    let output = command.args(arguments).arg(folder).output().unwrap();
    (
        String::from_utf8(output.stdout).unwrap(),
        output.status.success(),
    )
}

#[test]
fn the_words_are_those_of_the_paper() {
    let case = whole_case(10);
    assert_eq!(case.fields, [ONE, 0, 0]);
    assert_eq!(case.leaves, [0, 0, 3, ONE, 0, 3, 1, ONE]);
    assert_eq!(case.postings, [0, 1, 0, 2, 1, 0, 3, 1, 0, 2, 1, 0]);
    let query = [
        [3, 0, 2, 0, 0, 0, 0, 0, 0],
        [6, 1, 1, 0, 0, 0, 0, 0, 0],
        [1, 0, 0, 0, 0, 0, 0, 0, 0],
        [7, 2, 1, 0x4000_0000, 0, 0, 0, 0, 0],
        [6, 0, 1, 0, 0, 0, 0, 0, 0],
        [1, 0, 0, 1, 0, 0, 0, 0, 0],
    ];
    assert_eq!(case.query, query.as_flattened());
    assert_eq!(Node::decode(&case.query).unwrap().words(), case.query);
}

#[test]
fn the_files_give_back_the_case() {
    let mut case = whole_case(10);
    case.norms = vec![7];
    case.live = vec![0x0123_4567_89ab_cdef];
    case.values = vec![1, 2, 3];
    case.positions = vec![9];
    case.columns = vec![1];
    let folder = folder("files");
    case.write_folder(&folder).unwrap();
    assert_eq!(fs::read_dir(&folder).unwrap().count(), 10);
    assert_eq!(
        fs::read(folder.join("live.rec")).unwrap()[..2],
        [0xef, 0xcd]
    );
    assert_eq!(Case::read_folder(&folder), Ok(case));
}

#[test]
#[cfg_attr(not(oracle), ignore = "the Rust source is absent")]
fn the_oracle_gives_the_paper_s_lines() {
    with_oracle!({
        for (t, expected) in [
            (10, EXPECTED.into()),
            (1, EXPECTED.replace("3\n2", "3+\n2")),
        ] {
            let folder = folder(&format!("whole-{t}"));
            whole_case(t).write_folder(&folder).unwrap();
            let case = Case::read_folder(&folder).unwrap();
            assert_eq!(ask(&case).search().text(), expected);
            assert_eq!(program(&["hits"], &folder), (expected, true));
            let list = "0 3f800000\n2 40400000\n3 3f800000\n";
            assert_eq!(program(&["list"], &folder), (list.into(), true));
        }
    });
}

#[test]
fn without_the_source_the_program_says_so() {
    let folder = folder("absent");
    whole_case(10).write_folder(&folder).unwrap();
    let (text, success) = program(&["hits"], &folder);
    assert_eq!(success, cfg!(oracle));
    assert_eq!(text.is_empty(), !cfg!(oracle));
}

#[test]
fn the_program_tells_refusals_by_number() {
    let folder = folder("refused");
    assert_eq!(program(&["hits"], &folder), ("refused 0\n".into(), true));
    let case = Case {
        k: 0,
        ..whole_case(10)
    };
    case.write_folder(&folder).unwrap();
    assert_eq!(program(&["hits"], &folder), ("refused 11\n".into(), true));
    let long = vec![0; FILE_LIMIT + 1];
    for (name, bytes) in [
        ("norms.rec", &long[..]),
        ("live.rec", &long[..4]),
        ("run.rec", &long[..8]),
    ] {
        case.write_folder(&folder).unwrap();
        fs::write(folder.join(name), bytes).unwrap();
        assert_eq!(program(&["hits"], &folder), ("refused 0\n".into(), true));
    }
}

#[test]
fn the_program_writes_generated_cases() {
    let folder = folder("generated");
    assert_eq!(program(&["generate", "7"], &folder), (String::new(), true));
    assert_eq!(Case::read_folder(&folder), Ok(harness::generate::case(7)));
}
