//! What several test files share; each uses its own part.
#![allow(dead_code, unused_macros)]
#[cfg(oracle)]
pub mod leaves;
#[cfg(oracle)]
pub mod model;
pub mod plain;
pub mod reach;
pub mod taken;

use harness::answer::Hit;
use harness::case::Case;
use harness::catalogue::Catalogue;
#[cfg(oracle)]
use harness::failed::crossed;
#[cfg(oracle)]
use harness::oracle::Oracle;
use harness::query::*;
use harness::random::Random;
#[cfg(oracle)]
use harness::refusal::refusal;
use std::path::{Path, PathBuf};
use std::sync::atomic::{AtomicU64, Ordering};
use std::thread;

/// In f64 x + y + z narrows to 3f800001, x + z + y to 3f800000.
pub const X: u32 = 0x3f7f_ffff;
pub const Y: u32 = 0x3400_0000;
pub const Z: u32 = 0x253f_ffff;
pub const ONE: u32 = 0x3f80_0000;
/// 2^-24, half of the last place of 1
pub const HALF: u32 = 0x3380_0000;

/// The body of a test that needs the Rust source. Where that is absent the test is ignored, by an
/// attribute of its own; asked for all the same, it fails.
macro_rules! with_oracle {
    ($body:block) => {
        #[cfg(oracle)]
        $body
        #[cfg(not(oracle))]
        panic!("the Rust source is absent");
    };
}

/// The body of a test that needs the library and the Rust source, ignored where one is absent.
macro_rules! with_library {
    ($library:ident, $body:block) => {
        #[cfg(all(oracle, linked))]
        {
            let $library = &harness::border::Library;
            $body
        }
        #[cfg(not(all(oracle, linked)))]
        panic!("the library or the Rust source is absent");
    };
}

/// The body of a test that needs the library alone, ignored where that is absent.
macro_rules! with_linked {
    ($library:ident, $body:block) => {
        #[cfg(linked)]
        {
            let $library = &harness::border::Library;
            $body
        }
        #[cfg(not(linked))]
        panic!("the library is absent");
    };
}

/// How many generated cases are run beside the library where LOT_SEARCH_CASES does not say.
const CASES: u64 = 300_000;

pub fn cases() -> u64 {
    let cases = std::env::var("LOT_SEARCH_CASES").map_or(CASES, |n| n.parse().unwrap());
    assert!(cases > 0, "LOT_SEARCH_CASES leaves no case");
    cases
}

/// Works on each number below `end`, on all processors.
pub fn each(end: u64, work: impl Fn(u64) + Sync) {
    let next = AtomicU64::new(0);
    let one = || loop {
        let at = next.fetch_add(1, Ordering::Relaxed);
        if at >= end {
            return;
        }
        let _at = Seed(at);
        work(at);
    };
    let processors = thread::available_parallelism().map_or(1, |number| number.get());
    thread::scope(|scope| (0..processors).for_each(|_| _ = scope.spawn(one)));
}

/// Works on each item.
pub fn each_of<T: Sync>(items: &[T], work: impl Fn(&T, &mut Random) + Sync) {
    each(items.len() as u64, |at| {
        work(&items[at as usize], &mut Random::new(at));
    });
}

/// Document 01's whole case.
pub fn whole_case(t: u32) -> Case {
    let mut catalogue = Catalogue::new(4);
    let field = catalogue.field();
    let first = catalogue.leaf(field, &[0, 2, 3]);
    let second = catalogue.leaf(field, &[2]);
    let two = 2f32.to_bits();
    let must = constant_score(term(first)).must();
    let should = weighted(two, term(second)).should();
    catalogue.case(2, t, &boolean(0, [must, should]))
}

/// A text file of the repository.
pub fn text(path: &str) -> String {
    let path = Path::new(env!("CARGO_MANIFEST_DIR")).join("..").join(path);
    std::fs::read_to_string(&path).unwrap_or_else(|e| panic!("{}: {e}", path.display()))
}

/// A folder of a test's own, below cargo's folder for tests; what an earlier run left is gone.
pub fn folder(name: &str) -> PathBuf {
    let folder = Path::new(env!("CARGO_TARGET_TMPDIR")).join(name);
    if folder.exists() {
        std::fs::remove_dir_all(&folder).unwrap();
    }
    folder
}

/// The oracle for a case that none of the refusals hits; a range with a NaN end is asked crossed.
#[cfg(oracle)]
pub fn ask(case: &Case) -> Oracle {
    assert_eq!(refusal(case), 0, "{case:?}");
    Oracle::new(&crossed(case))
}

/// The full list as pairs.
#[cfg(oracle)]
pub fn list(case: &Case) -> Vec<(u32, u32)> {
    pairs(&ask(case).list())
}

#[cfg(oracle)]
pub fn documents(case: &Case) -> Vec<u32> {
    list(case)
        .into_iter()
        .map(|(document, _)| document)
        .collect()
}

pub fn pairs(hits: &[Hit]) -> Vec<(u32, u32)> {
    hits.iter().map(|hit| (hit.document, hit.bits)).collect()
}

/// Tells at which seed a test failed.
pub struct Seed(pub u64);

impl Drop for Seed {
    fn drop(&mut self) {
        if std::thread::panicking() {
            eprintln!("at seed {}", self.0);
        }
    }
}
