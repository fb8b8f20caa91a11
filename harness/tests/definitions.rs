//! The definitions of crates/meaning, and the text of `hits`, beside the Rust: antt computes them on
//! calls of every entry, accepted ones and refused ones of every number, whose number `refusal`
//! tells, and on patterns to narrow. More rows: DEFINITION_ROWS=1000.
#[macro_use]
mod common;

#[cfg(oracle)]
mod rows {
    use harness::definitions::narrowing::{self, Step};
    use harness::definitions::rows::{every_number, generated};
    use harness::definitions::{Entry, Row, tokens, write_crate, write_rows};
    use std::collections::BTreeMap;
    use std::path::{Path, PathBuf};
    use std::process::{Child, Command, Stdio};

    /// Which numbers an entry's rows must have.
    const NUMBERS: [(Entry, &[u32]); 9] = [
        (Entry::List, &[0]),
        (Entry::Search, &[0, 1, 2, 3, 4, 5, 6, 7, 8, 9, 10, 11, 12]),
        (Entry::Page, &[0, 1, 2, 3, 4, 5, 6, 7, 8, 9, 10, 12, 13]),
        (Entry::Place, &[0, 1, 2, 3, 4, 5, 6, 7, 8, 9, 10, 12, 13]),
        (Entry::Range, &[0, 1, 6, 8, 12]),
        (Entry::Pick, &[0, 11, 12, 14]),
        (Entry::Length, &[0]),
        (Entry::Text, &[0, 1, 2, 3, 4, 5, 6, 7, 8, 9, 10, 11, 12]),
        (Entry::Write, &[0, 1, 2, 15, 16]),
    ];

    /// So many rows of searches and the like, and those of tokens and of narrowing beside them.
    fn all(number: usize) -> Vec<Row> {
        let mut rows = every_number();
        let wanted = number.max(rows.len() + 16);
        let more = (0..).filter_map(generated);
        rows.extend(more.take(wanted - rows.len()));
        rows.extend(tokens::rows(number));
        rows.extend(narrowing::rows(number));
        rows
    }

    /// How many rows each step of narrowing (request 2026-04) must decide.
    const LEAST: usize = 10;

    /// How many rows each entry has, that none of its numbers lacks, and no step of narrowing.
    fn count(rows: &[Row]) {
        let mut counts = BTreeMap::new();
        for row in rows {
            *counts.entry((row.entry, row.number)).or_insert(0) += 1;
        }
        for (entry, numbers) in NUMBERS {
            let of = |number: &u32| counts.get(&(entry, *number)).copied().unwrap_or(0);
            let given: Vec<_> = numbers.iter().map(|n| format!("{n}: {}", of(n))).collect();
            println!("{entry:?}: {}", given.join(", "));
            assert!(
                numbers.iter().all(|n| of(n) > 0),
                "{entry:?} lacks a number"
            );
        }
        for step in [Step::Kept, Step::Rounded, Step::Overflow, Step::Subnormal] {
            let entry = Entry::Narrow(step);
            let own = counts.get(&(entry, 0)).copied().unwrap_or(0);
            println!("{entry:?}: {own}");
            assert!(own >= LEAST, "{step:?} decides too few rows");
        }
    }

    /// How many rows of each entry that asks ranges have NaN values there, and NaN ends.
    pub fn count_failed_readings(number: usize) {
        let rows = all(number);
        for entry in [
            Entry::List,
            Entry::Search,
            Entry::Page,
            Entry::Range,
            Entry::Text,
        ] {
            let own = || rows.iter().filter(|row| row.entry == entry);
            let values = own().filter(|row| row.failed_value).count();
            let ends = own().filter(|row| row.failed_end).count();
            println!("{entry:?}: {values} with NaN values, {ends} with NaN ends");
            assert!(values > 0 && ends > 0, "{entry:?}");
        }
    }

    /// A check of some rows, in a repository of its own that goes when the check is as wanted. It lies
    /// outside of this one, in which `rt ci` refuses a .antt file that no crate of crates.txt has.
    struct Check {
        top: PathBuf,
        child: Child,
    }

    /// Starts the check of some rows.
    fn start(part: &str, rows: &[Row]) -> Check {
        let name = format!("lot_search-definitions-{}-{part}", std::process::id());
        let top = std::env::temp_dir().join(name);
        if top.exists() {
            std::fs::remove_dir_all(&top).unwrap();
        }
        let crates = Path::new(env!("CARGO_MANIFEST_DIR")).join("../crates");
        let folder = write_crate(&crates, &top).unwrap();
        write_rows(&folder, rows).unwrap();
        let mut command = Command::new("rt");
        command.arg("check").current_dir(&folder);
        command.stdout(Stdio::piped()).stderr(Stdio::piped());
        let child = command.spawn().expect("rt");
        Check { top, child }
    }

    impl Check {
        /// What a check said, which ends as `proved` says.
        fn end(self, proved: bool) -> String {
            let out = self.child.wait_with_output().unwrap();
            let text = [out.stdout, out.stderr].concat();
            let text = String::from_utf8_lossy(&text).into_owned();
            let top = self.top;
            assert_eq!(out.status.success(), proved, "{}: {text}", top.display());
            std::fs::remove_dir_all(top).unwrap();
            text
        }
    }

    pub fn check(number: usize) {
        let rows = all(number);
        count(&rows);
        let processors = std::thread::available_parallelism().map_or(1, |number| number.get());
        let parts = rows.chunks(rows.len().div_ceil(processors));
        let parts = (0..).zip(parts).map(|(at, part)| (format!("{at}"), part));
        let started: Vec<_> = parts.map(|(at, part)| start(&at, part)).collect();
        for check in started {
            check.end(true);
        }
        println!("{} rows", rows.len());
    }

    /// One equation of each kind with another answer: antt refuses every one, by its name.
    pub fn check_changed() {
        let mut kinds = BTreeMap::new();
        for (kind, row) in all(0).iter().flat_map(Row::changed) {
            kinds.entry(kind).or_insert(row);
        }
        let (kinds, rows): (Vec<_>, Vec<_>) = kinds.into_iter().unzip();
        let text = start("changed", &rows).end(false);
        for (place, kind) in kinds.iter().enumerate() {
            let refused = format!("error: `row-{place}-0`");
            assert!(text.contains(&refused), "{kind:?} is not refused");
        }
        println!("{} kinds of equations", kinds.len());
    }
}

#[test]
#[cfg_attr(not(oracle), ignore = "the Rust source is absent")]
fn other_answers_are_refused() {
    with_oracle!({ rows::check_changed() });
}

/// How many rows are checked where DEFINITION_ROWS does not say.
#[cfg(oracle)]
const ROWS: usize = 480;

/// NaN values and NaN ends (request 2026-03) are among the rows.
#[test]
#[cfg_attr(not(oracle), ignore = "the Rust source is absent")]
fn failed_readings_are_asked() {
    with_oracle!({ rows::count_failed_readings(ROWS) });
}

#[test]
#[cfg_attr(not(oracle), ignore = "the Rust source is absent")]
fn definitions_give_the_answers_of_the_rust() {
    with_oracle!({
        let number = std::env::var("DEFINITION_ROWS").map_or(ROWS, |n| n.parse().unwrap());
        rows::check(number);
    });
}
