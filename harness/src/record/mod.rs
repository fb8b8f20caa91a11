//! What the programs of vectors (crates/vectors_*) have to print, worked out outside of our code: by
//! the unchanged Rust where it has the function, and else by Rust's own IEEE 754 operations or by the
//! judges that are written from the texts. Both sides make the inputs by the same short rules.
mod collector;
mod doc_values;
mod ieee754;
mod phrase;
mod refusal;
pub mod search;
mod sim;
mod tokens;
mod trees;

use std::io;
use std::path::Path;

/// A program's crate and its stdout.
pub type Recorded = (&'static str, String);

pub fn all() -> Vec<Recorded> {
    vec![
        ("vectors_ieee754", ieee754::text()),
        ("vectors_sim", sim::text()),
        ("vectors_doc_values", doc_values::text()),
        ("vectors_phrase", phrase::text()),
        ("vectors_collector", collector::text()),
        ("vectors_refusals", refusal::text()),
        ("vectors_search", search::text()),
        ("vectors_tokens", tokens::text()),
    ]
}

/// The files that programs read, by their paths below the folder of crates.
pub fn data() -> Vec<(String, Vec<u8>)> {
    let mut files = vec![
        ("vectors_refusals/data/cases.rec".into(), refusal::data()),
        ("vectors_tokens/data/rows.rec".into(), tokens::data()),
    ];
    for (i, bytes) in (1..).zip(search::data()) {
        files.push((format!("vectors_search/data/cases{i}.rec"), bytes));
    }
    files
}

/// Writes each stdout, and each file that a program reads, into its crate's folder.
pub fn write(crates: &Path) -> io::Result<()> {
    for (name, text) in all() {
        std::fs::write(crates.join(name).join("stdout"), text)?;
    }
    for (path, bytes) in data() {
        std::fs::write(crates.join(path), bytes)?;
    }
    Ok(())
}

/// Marsaglia's xorshift, as the programs have it.
fn xorshift(x: u64) -> u64 {
    let x = x ^ (x << 13);
    let x = x ^ (x >> 7);
    x ^ (x << 17)
}

/// The numbers after a seed.
fn numbers(seed: u64) -> impl Iterator<Item = u64> {
    std::iter::successors(Some(xorshift(seed)), |x| Some(xorshift(*x)))
}

/// The pattern of a value, or `nan`, on a line of its own.
fn single(x: f32) -> String {
    match x.is_nan() {
        true => "nan\n".into(),
        false => format!("{:08x}\n", x.to_bits()),
    }
}

fn double(x: f64) -> String {
    match x.is_nan() {
        true => "nan\n".into(),
        false => format!("{:016x}\n", x.to_bits()),
    }
}

/// Where a list stands among the words, to which it is added where it doesn't.
fn place(pool: &mut Vec<u32>, list: &[u32]) -> usize {
    if list.is_empty() {
        return 0;
    }
    let found = pool.windows(list.len()).position(|part| part == list);
    found.unwrap_or_else(|| {
        pool.extend(list);
        pool.len() - list.len()
    })
}
