//! `bench` times Search of the library beside the Rust over its plain list cursor, on the same
//! inputs in one process, at 9,000 and 1,000,000 lots; `bench LOTS` at one size; `bench LOTS WORDS`
//! only the workload or sheet of that name, or where none is called so those whose name has these
//! words. It also times the writing of an index beside a plain writer, at 100,000 and 10,000,000
//! tokens; `bench write` only that. How to read it is said in docs/BENCHMARK.md.
#![cfg_attr(not(all(oracle, linked)), allow(dead_code, unused_imports))]
mod machine;
#[cfg(all(oracle, linked))]
mod report;
#[cfg(all(oracle, linked))]
mod sheet;
#[cfg(all(oracle, linked))]
mod targets;
#[cfg(all(oracle, linked))]
mod timing;
#[cfg(all(oracle, linked))]
mod writing;

#[cfg(all(oracle, linked))]
fn main() {
    println!("{}", machine::description());
    let name = std::env::args().nth(2).unwrap_or_default();
    let run = |lots| match lots {
        ..50_000 => report::run(lots, &name, 8, 101),
        _ => report::run(lots, &name, 4, 11),
    };
    match std::env::args().nth(1).as_deref() {
        Some("write") => writing::run(),
        Some(lots) => _ = run(lots.parse().expect("a number of lots")),
        None => {
            report::linear(&run(9_000), &run(1_000_000));
            writing::run();
        }
    }
    println!("load after: {}", machine::load());
}

#[cfg(not(all(oracle, linked)))]
fn main() -> std::process::ExitCode {
    eprintln!("built without the library or without the Rust source: there is nothing to compare");
    std::process::ExitCode::from(2)
}
