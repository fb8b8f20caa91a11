//! `fuzz SECONDS [SEED]` hands random and changed words to the library's entries for so long, each
//! lent slice between two pages that nobody may touch: no crash, nothing read or written outside,
//! the judge's number; of accepted calls the Rust's answer where its source is there, and the laws
//! (`harness::fuzz`); and of indexes written from tokens what the judge writes.
#![cfg_attr(not(linked), allow(dead_code, unused_imports))]
#[cfg(linked)]
mod calls;
mod fault;
mod mapping;
mod memory;
mod writing;

use std::process::ExitCode;

#[cfg(linked)]
fn main() -> ExitCode {
    let arguments: Vec<_> = std::env::args().skip(1).map(|a| a.parse().ok()).collect();
    let (seconds, first) = match arguments[..] {
        [Some(seconds)] => (seconds, 0),
        [Some(seconds), Some(seed)] => (seconds, seed),
        _ => {
            eprintln!("fuzz SECONDS [SEED]");
            return ExitCode::from(2);
        }
    };
    calls::run(seconds, first);
    ExitCode::SUCCESS
}

#[cfg(not(linked))]
fn main() -> ExitCode {
    eprintln!("built without the library: there is nothing to call");
    ExitCode::from(2)
}
