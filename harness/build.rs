//! Writes OUT_DIR/root.rs: the module tree of the oracle, with `#[path]` straight at the files of
//! the Rust source, so that they are compiled as they stand. The source's folder is ORACLE_SRC
//! (relative to this package), by default `shared/docs/src` beside the repository. Without it
//! there is no `cfg(oracle)`, and the tests that need the Rust are ignored.
//! Links the proved library where `rt lib` in crates/lot_search has written it, and sets
//! `cfg(linked)`; sets `cfg(hits)` where the program is built. `rt ci` removes the library.
//! LOT_SEARCH_REQUIRED=1, which the gate sets, makes it an error that one of the three is absent;
//! LOT_SEARCH_REQUIRED=library, that library or program is.
use std::path::{Path, PathBuf};
use std::{env, fs};

const DEFAULT: &str = "../../shared/docs/src";
const LIBRARY: &str = "../crates/lot_search/out";
const PROGRAM: &str = "../crates/hits/out/hits";

fn main() {
    println!("cargo::rerun-if-changed=build.rs");
    println!("cargo::rerun-if-env-changed=LOT_SEARCH_REQUIRED");
    let package = PathBuf::from(env::var("CARGO_MANIFEST_DIR").unwrap());
    link(&package);
    program(&package);
    oracle(&package);
}

/// Says that something is absent: an error where LOT_SEARCH_REQUIRED has one of the words.
fn absent(words: &[&str], what: &str) {
    let required = env::var("LOT_SEARCH_REQUIRED").unwrap_or_default();
    match words.contains(&required.as_str()) {
        true => println!("cargo::error={what}"),
        false => println!("cargo::warning={what}: the tests that need it are ignored"),
    }
}

fn link(package: &Path) {
    println!("cargo::rustc-check-cfg=cfg(linked)");
    let folder = package.join(LIBRARY);
    let library = folder.join("liblot_search.a");
    println!("cargo::rerun-if-changed={}", library.display());
    if library.exists() {
        println!("cargo::rustc-link-search=native={}", folder.display());
        println!("cargo::rustc-link-lib=static=lot_search");
        println!("cargo::rustc-cfg=linked");
    } else {
        let library = library.display();
        let what = format!("no {library}, which `rt lib` writes there");
        absent(&["1", "library"], &what);
    }
}

/// tests/hits_program.rs runs it.
fn program(package: &Path) {
    println!("cargo::rustc-check-cfg=cfg(hits)");
    let program = package.join(PROGRAM);
    println!("cargo::rerun-if-changed={}", program.display());
    if program.exists() {
        println!("cargo::rustc-cfg=hits");
    } else {
        let what = format!("no {}, which `rt run` writes", program.display());
        absent(&["1", "library"], &what);
    }
}

fn oracle(package: &Path) {
    println!("cargo::rustc-check-cfg=cfg(oracle)");
    println!("cargo::rerun-if-env-changed=ORACLE_SRC");
    let source = package.join(env::var("ORACLE_SRC").unwrap_or_else(|_| DEFAULT.into()));
    if !source.is_dir() {
        // named although it is absent: cargo then looks for it again at the next build
        println!("cargo::rerun-if-changed={}", source.display());
        absent(&["1"], &format!("no Rust source in {}", source.display()));
        return;
    }
    let out = PathBuf::from(env::var("OUT_DIR").unwrap());
    fs::write(out.join("cuts.rs"), cuts(&source)).unwrap();
    fs::write(out.join("private.rs"), private(&source)).unwrap();
    let own = package.join("src/oracle");
    fs::write(out.join("root.rs"), root(&source, &own, &out)).unwrap();
    println!("cargo::rustc-cfg=oracle");
}

/// The source file at `path`, which may also be spelled `src--src--search--scorer.rs.txt`.
fn find(source: &Path, path: &str) -> PathBuf {
    let spelled = source.join(format!("src--{}.txt", path.replace('/', "--")));
    let plain = source.join(path);
    let file = if spelled.exists() { spelled } else { plain };
    assert!(file.exists(), "the Rust source has no {path}");
    println!("cargo::rerun-if-changed={}", file.display());
    file.canonicalize().unwrap()
}

/// The text from the mark `from` up to, and without, the mark `to` (or to the end).
fn cut<'a>(text: &'a str, from: &str, to: Option<&str>) -> &'a str {
    assert_eq!(text.matches(from).count(), 1, "mark {from:?} is not single");
    let rest = &text[text.find(from).unwrap()..];
    let end = to.map_or(rest.len(), |mark| rest.find(mark).expect("no end mark"));
    &rest[..end]
}

/// Two files can't be compiled whole (index/mod.rs names missing modules, index/reader.rs reads a
/// directory): what is needed is cut out of their text, and nothing is retyped.
fn cuts(source: &Path) -> String {
    let read = |path| fs::read_to_string(find(source, path)).unwrap();
    let term = "/// A term in a field: the unit of indexing";
    let stats = "/// Index-wide statistics of a field";
    let reader = "/// An immutable view of one commit";
    let mut text = cut(&read("src/index/mod.rs"), term, None).to_string();
    text += cut(&read("src/index/reader.rs"), stats, Some(reader));
    text
}

/// The private functions of the collector's codes and of SmallFloat, for src/oracle/private.rs to
/// include: their files are compiled whole as well, but nothing else can call them there.
fn private(source: &Path) -> String {
    let read = |path| fs::read_to_string(find(source, path)).unwrap();
    let codes = "#[inline]\nconst fn float_to_sortable_int(";
    let after_codes = "use crate::search::util::next_up;";
    let small_float = "const fn long_to_int4(";
    let after_small_float = "const MAX_INT4";
    let mut text = cut(&read("src/search/collector.rs"), codes, Some(after_codes)).to_string();
    text += cut(&read("src/sim.rs"), small_float, Some(after_small_float));
    text
}

/// The module tree. A path is of the Rust source, or a stand-in of ours (`own:`), or `cuts.rs`.
const ROOT: &str = r#"
#[path = "src/sim.rs"] mod sim_source;
#[path = "own:sim.rs"] mod sim;
#[path = "own:num.rs"] mod num;
#[path = "own:error.rs"] mod error;
#[path = "own:document.rs"] mod document;
mod codec {
    #[path = "own:forutil.rs"] pub mod forutil;
    #[path = "own:cursor.rs"] pub mod postings_reader;
    #[path = "own:store.rs"] pub mod store;
}
mod index {
    #[path = "own:codec_util.rs"] pub mod codec_util;
    #[path = "cuts.rs"] mod cuts;
    #[path = "src/index/doc_values.rs"] pub mod doc_values;
    #[path = "src/index/field_infos.rs"] pub mod field_infos;
    #[path = "src/index/live_docs.rs"] pub mod live_docs;
    #[path = "own:segment.rs"] pub mod segment;
    pub use cuts::{CollectionStats, Term, TermStats};
    pub use field_infos::{FieldInfo, FieldInfos};
    pub use live_docs::LiveDocs;
    pub use segment::{DirectoryReader, SegmentReader};
}
mod search {
    #[path = "own:bulk.rs"] pub mod bulk;
    #[path = "src/search/collector.rs"] pub mod collector;
    #[path = "src/search/query.rs"] pub mod query;
    #[path = "src/search/scorer.rs"] pub mod scorer;
    #[path = "src/search/searcher.rs"] pub mod searcher;
    #[path = "src/search/term_scorer.rs"] pub mod term_scorer;
    #[path = "src/search/util.rs"] pub mod util;
    #[path = "own:walk.rs"] pub mod walk;
}
"#;

/// ROOT with whole paths. The source has more than we call, so unused parts draw no warning.
fn root(source: &Path, own: &Path, out: &Path) -> String {
    let mut text = String::new();
    for line in ROOT.lines() {
        let Some((before, rest)) = line.split_once("#[path = \"") else {
            text += &format!("{line}\n");
            continue;
        };
        let (path, after) = rest.split_once('"').unwrap();
        let file = match path.strip_prefix("own:") {
            Some(ours) => own.join(ours),
            None if path == "cuts.rs" => out.join(path),
            None => find(source, path),
        };
        let quiet = "#[allow(dead_code, unused_imports, clippy::all)]";
        text += &format!("{before}{quiet} #[path = {file:?}{after}\n");
    }
    text
}
