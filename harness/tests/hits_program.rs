//! The program `hits` on folders of files, where `rt run` or `rt ci` has built it: what it prints is
//! what the judge of refusals and the Rust say. LOT_SEARCH_REQUIRED=1 makes its absence an error.
#![cfg_attr(not(oracle), allow(unused))]
#[macro_use]
mod common;

use common::*;
use harness::boundary;
use harness::case::{Case, FILE_LIMIT};
use harness::catalogue::Catalogue;
use harness::damage::damaged;
use harness::failed::example;
use harness::generate;
use harness::query::*;
use harness::random::Random;
use harness::refusal::refusal;
use std::collections::BTreeSet;
use std::fs;
use std::path::{Path, PathBuf};
use std::process::Command;

const FILES: [&str; 10] = [
    "run.rec",
    "fields.rec",
    "leaves.rec",
    "postings.rec",
    "positions.rec",
    "norms.rec",
    "live.rec",
    "columns.rec",
    "values.rec",
    "query.rec",
];

const REFUSED: &str = "refused 0\n";

/// The program and a folder to write cases into.
struct Hits {
    program: PathBuf,
    folder: PathBuf,
}

impl Hits {
    fn find(test: &str) -> Hits {
        let root = Path::new(env!("CARGO_MANIFEST_DIR")).join("..");
        let program = root.join("crates/hits/out/hits");
        assert!(program.exists(), "no {}", program.display());
        let folder = folder(&format!("hits-{test}"));
        fs::create_dir_all(&folder).unwrap();
        Hits { program, folder }
    }

    fn file(&self, name: &str) -> PathBuf {
        self.folder.join(name)
    }

    fn write(&self, case: &Case) {
        case.write_folder(&self.folder).unwrap();
    }

    /// What it prints when it is started in a folder.
    fn started_in(&self, folder: &Path) -> String {
        let mut command = Command::new(&self.program);
        let output = command.current_dir(folder).output().unwrap();
        assert!(output.status.success(), "{output:?}");
        assert!(output.stderr.is_empty(), "{output:?}");
        String::from_utf8(output.stdout).unwrap()
    }

    fn prints(&self) -> String {
        self.started_in(&self.folder)
    }

    /// What it prints for a case, which is what it must print; the refusal's number or 0.
    fn right(&self, case: &Case) -> u32 {
        self.write(case);
        let Ok(read) = Case::read_folder(&self.folder) else {
            assert_eq!(self.prints(), REFUSED);
            return 0;
        };
        assert_eq!(&read, case);
        let number = refusal(case);
        match number {
            0 => self.found(case),
            _ => assert_eq!(self.prints(), format!("refused {number}\n"), "{case:?}"),
        }
        number
    }

    #[cfg(oracle)]
    fn found(&self, case: &Case) {
        assert_eq!(self.prints(), ask(case).search().text(), "{case:?}");
    }

    #[cfg(not(oracle))]
    fn found(&self, case: &Case) {
        assert!(self.prints().starts_with("count "), "{case:?}");
    }
}

/// The whole case, from the files that the program is run on under `rt ci`.
fn own_folder() -> PathBuf {
    Path::new(env!("CARGO_MANIFEST_DIR")).join("../crates/hits/data")
}

#[test]
#[cfg_attr(not(hits), ignore = "the program hits is not built")]
fn the_whole_case() {
    let hits = Hits::find("whole");
    let expected = "count 3\n2 40400000\n0 3f800000\n";
    assert_eq!(hits.started_in(&own_folder()), expected);
    let case = Case::read_folder(&own_folder()).unwrap();
    assert_eq!((case.n, case.k, case.t), (4, 2, 10));
    for (t, first) in [(3, "count 3\n"), (2, "count 3+\n"), (1, "count 3+\n")] {
        hits.write(&Case { t, ..case.clone() });
        assert_eq!(hits.prints(), expected.replace("count 3\n", first));
    }
}

/// The whole case with its best lot withdrawn; and with any document, or one that it has not.
#[test]
#[cfg_attr(not(hits), ignore = "the program hits is not built")]
fn a_withdrawn_lot() {
    let hits = Hits::find("withdrawn");
    let case = Case::read_folder(&own_folder()).unwrap();
    hits.write(&case);
    fs::write(hits.file("live.rec"), b"\xfb\xff\xff\xff\xff\xff\xff\xff").unwrap();
    assert_eq!(hits.prints(), "count 2\n0 3f800000\n3 3f800000\n");
    assert_eq!(Case::read_folder(&hits.folder), Ok(case.withdrawn(2)));
    for document in [0, 1, 2, 3, 4, 64] {
        assert_eq!(hits.right(&case.withdrawn(document)), 0);
    }
}

#[test]
#[cfg_attr(not(hits), ignore = "the program hits is not built")]
fn files_that_are_missing_or_unreadable() {
    let hits = Hits::find("missing");
    assert_eq!(hits.prints(), REFUSED);
    for name in FILES {
        hits.write(&boundary::sound());
        fs::remove_file(hits.file(name)).unwrap();
        assert_eq!(hits.prints(), REFUSED, "{name}");
        fs::create_dir(hits.file(name)).unwrap();
        assert_eq!(hits.prints(), REFUSED, "{name}");
        fs::remove_dir(hits.file(name)).unwrap();
    }
    hits.write(&boundary::sound());
    assert_ne!(hits.prints(), REFUSED);
}

/// One byte less or more is no whole word; norm bytes are refused by their number alone.
#[test]
#[cfg_attr(not(hits), ignore = "the program hits is not built")]
fn files_that_are_not_of_whole_words() {
    let hits = Hits::find("words");
    let case = boundary::sound();
    for name in FILES {
        hits.write(&case);
        let bytes = fs::read(hits.file(name)).unwrap();
        let expected = if name == "norms.rec" { 3 } else { 0 };
        let longer = [&bytes[..], &[0]].concat();
        for bytes in [&bytes[..bytes.len() - 1], &longer] {
            fs::write(hits.file(name), bytes).unwrap();
            assert_eq!(hits.prints(), format!("refused {expected}\n"), "{name}");
        }
    }
    hits.write(&case);
    let live = fs::read(hits.file("live.rec")).unwrap();
    fs::write(hits.file("live.rec"), &live[..4]).unwrap();
    assert_eq!(hits.prints(), REFUSED);
}

/// 64 KiB are taken (a run.rec is of 12 bytes), and a byte more is not.
#[test]
#[cfg_attr(not(hits), ignore = "the program hits is not built")]
fn files_at_the_limit() {
    let hits = Hits::find("limit");
    let case = boundary::sound();
    let mut full = case.clone();
    full.positions.resize(FILE_LIMIT / 4, 0);
    assert_eq!(hits.right(&full), 0);
    // the number with which the sound case is refused once the file has 64 KiB of set bits
    let numbers = [0, 2, 4, 5, 5, 3, 3, 6, 6, 7];
    for (name, number) in FILES.into_iter().zip(numbers) {
        hits.write(&case);
        fs::write(hits.file(name), vec![255; FILE_LIMIT]).unwrap();
        assert_eq!(hits.prints(), format!("refused {number}\n"), "{name}");
        for more in [1, 4, 8, FILE_LIMIT] {
            fs::write(hits.file(name), vec![255; FILE_LIMIT + more]).unwrap();
            assert_eq!(hits.prints(), REFUSED, "{name}");
        }
    }
}

/// So many ranges over a column; values.rec has room for 5,461 documents.
fn ranges(n: u32, ranges: usize) -> Case {
    let mut catalogue = Catalogue::new(n);
    catalogue.column_of_i64(&vec![None; n as usize]);
    let clauses = vec![range(0, 0, 0, 0).should(); ranges];
    catalogue.case(1, 0, &boolean(0, clauses))
}

/// Every boundary of the refusals 1 to 10 from both sides, and the caller's.
#[test]
#[cfg_attr(not(hits), ignore = "the program hits is not built")]
fn every_refusal() {
    let hits = Hits::find("refusals");
    let mut told = BTreeSet::new();
    for (_, case) in boundary::all() {
        told.insert(hits.right(&case));
    }
    for k in [0, 1, 1024, 1025, u32::MAX] {
        let case = Case {
            k,
            ..boundary::sound()
        };
        told.insert(hits.right(&case));
    }
    for (n, number) in [(4096, 0), (4097, 12), (5461, 12)] {
        assert_eq!(hits.right(&ranges(n, 3)), number);
    }
    assert_eq!(hits.right(&ranges(5461, 2)), 0);
    assert_eq!(told, (0..=11).collect());
}

#[test]
#[cfg_attr(not(hits), ignore = "the program hits is not built")]
fn the_largest_catalogue() {
    let hits = Hits::find("largest");
    let all = |n| Catalogue::new(n).case(1024, 5, &match_all());
    hits.write(&all(1_048_576));
    let lines = (0..1024).map(|document| format!("{document} 3f800000\n"));
    let expected = format!("count 1048576+\n{}", lines.collect::<String>());
    assert_eq!(hits.prints(), expected);
    assert_eq!(hits.right(&all(1_048_577)), 1);
    assert_eq!(hits.right(&all(0)), 0);
}

/// The worked examples of request 2026-03; no mark stands, for fewer match than are asked for.
#[test]
#[cfg_attr(not(hits), ignore = "the program hits is not built")]
fn failed_readings() {
    let hits = Hits::find("failed");
    for (case, documents) in example::ranges() {
        let lines = documents.iter().map(|d| format!("{d} 3f800000\n"));
        let lines: String = lines.collect();
        hits.write(&case);
        let expected = format!("count {}\n{lines}", documents.len());
        assert_eq!(hits.prints(), expected, "{case:?}");
    }
    for (case, bits) in example::costs() {
        hits.write(&case);
        assert_eq!(hits.prints(), format!("count 1\n0 {bits:08x}\n"));
    }
}

/// Generated cases, and damaged copies of them; every third with a NaN end.
#[test]
#[cfg_attr(not(oracle), ignore = "the Rust source is absent")]
#[cfg_attr(not(hits), ignore = "the program hits is not built")]
fn generated_cases() {
    let hits = Hits::find("generated");
    let mut random = Random::new(11);
    for seed in 0..300 {
        let _seed = Seed(seed);
        let case = match seed % 3 {
            0 => generate::with_failed_end(seed),
            _ => generate::case(seed),
        };
        assert_eq!(hits.right(&case), 0);
        hits.right(&damaged(&mut random, &case));
    }
}
