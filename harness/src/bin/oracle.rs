//! `oracle hits DIR` prints what the program `hits` prints for a folder of .rec files, worked out
//! by the Rust source; `oracle list DIR` the full list; `oracle generate SEED DIR` writes a case.
use harness::case::Case;
#[cfg(oracle)]
use harness::failed::crossed;
use harness::generate;
use harness::refusal::refusal;
use std::path::Path;
use std::process::ExitCode;

const USAGE: &str = "oracle hits DIR | list DIR | generate SEED DIR";

fn main() -> ExitCode {
    let args: Vec<String> = std::env::args().skip(1).collect();
    let args: Vec<&str> = args.iter().map(String::as_str).collect();
    let done = match args.as_slice() {
        ["hits", folder] => answer(Path::new(folder), true),
        ["list", folder] => answer(Path::new(folder), false),
        ["generate", seed, folder] => write(seed, Path::new(folder)),
        _ => Err(USAGE.into()),
    };
    match done {
        Ok(text) => {
            print!("{text}");
            ExitCode::SUCCESS
        }
        Err(message) => {
            eprintln!("{message}");
            ExitCode::from(2)
        }
    }
}

/// A refused folder is told by its number, as the program `hits` does.
fn answer(folder: &Path, hits: bool) -> Result<String, String> {
    let case = match Case::read_folder(folder) {
        Ok(case) => case,
        Err(why) => {
            eprintln!("{why}");
            return Ok("refused 0\n".into());
        }
    };
    match refusal(&case) {
        0 => ask(&case, hits),
        number => Ok(format!("refused {number}\n")),
    }
}

#[cfg(oracle)]
fn ask(case: &Case, hits: bool) -> Result<String, String> {
    let oracle = harness::oracle::Oracle::new(&crossed(case));
    Ok(match hits {
        true => oracle.search().text(),
        false => harness::answer::lines(&oracle.list()),
    })
}

#[cfg(not(oracle))]
fn ask(_: &Case, _: bool) -> Result<String, String> {
    Err("built without the Rust source: set ORACLE_SRC to its folder and build again".into())
}

fn write(seed: &str, folder: &Path) -> Result<String, String> {
    let seed = seed.parse().map_err(|_| USAGE.to_string())?;
    let case = generate::case(seed);
    case.write_folder(folder).map_err(|e| e.to_string())?;
    Ok(String::new())
}
