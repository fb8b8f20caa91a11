//! `record CRATES` writes the stdout files of the programs of vectors in the folder of crates: what
//! the unchanged Rust, or Rust's own operations, answer for the programs' inputs.
use std::process::ExitCode;

fn main() -> ExitCode {
    let args: Vec<String> = std::env::args().skip(1).collect();
    let done = match args.as_slice() {
        [crates] => write(crates),
        _ => Err("record CRATES".into()),
    };
    match done {
        Ok(()) => ExitCode::SUCCESS,
        Err(message) => {
            eprintln!("{message}");
            ExitCode::from(2)
        }
    }
}

#[cfg(oracle)]
fn write(crates: &str) -> Result<(), String> {
    harness::record::write(crates.as_ref()).map_err(|e| e.to_string())
}

#[cfg(not(oracle))]
fn write(_: &str) -> Result<(), String> {
    Err("built without the Rust source: set ORACLE_SRC to its folder and build again".into())
}
