//! Generated cases worked out by document 01's words, beside the Rust; and how many of them would
//! show a slip.
#![cfg_attr(not(oracle), allow(unused))]
#[macro_use]
mod common;

#[cfg(oracle)]
use common::leaves::Scores;
#[cfg(oracle)]
use common::model::{SLIPS, Slip, Tree};
use common::*;
use harness::case::Case;
use harness::generate;
use harness::query::Node;

const CASES: u64 = 6000;

/// The live documents with their scores' bits.
#[cfg(oracle)]
fn listed(scores: &Scores, live: &[bool]) -> Vec<(u32, u32)> {
    let scored = (0..).zip(scores).zip(live);
    let taken = scored.filter(|(_, live)| **live);
    taken
        .filter_map(|((document, score), _)| Some((document, (*score)?.to_bits())))
        .collect()
}

/// Which slips would show in the list of a case, after the model has given the Rust's own list.
#[cfg(oracle)]
fn shown(case: &Case) -> Vec<bool> {
    let live: Vec<_> = (0..case.n).map(|d| case.is_live(d)).collect();
    let root = Node::decode(&case.query).unwrap();
    let tree = Tree::of(case, &root, 1.0, &live);
    let right = list(case);
    assert_eq!(listed(&tree.scores(Slip::None), &live), right);
    assert_eq!(tree.costs(), ask(case).costs());
    SLIPS
        .map(|(slip, _)| listed(&tree.scores(slip), &live) != right)
        .to_vec()
}

#[test]
#[cfg_attr(not(oracle), ignore = "the Rust source is absent")]
fn document_01_by_its_words_and_the_slips_that_show() {
    with_oracle!({
        let mut shows = [0; SLIPS.len()];
        for seed in 0..CASES {
            let _seed = Seed(seed);
            let slips = shown(&generate::case(seed));
            for (count, show) in shows.iter_mut().zip(slips) {
                *count += u64::from(show);
            }
        }
        for ((slip, least), count) in SLIPS.iter().zip(shows) {
            println!("{count:5} of {CASES} show {slip:?}");
            let enough = 1000 * count >= least * CASES;
            assert!(enough, "{slip:?} shows in {count} cases only");
        }
    });
}

/// The recorded cases are older than request 2026-03; tests/failed_readings.rs has this one.
#[cfg(oracle)]
const NOT_RECORDED: Slip = Slip::FailedCounted;

/// So that the programs that are held to them would show each slip without the Rust.
#[test]
#[cfg_attr(not(oracle), ignore = "the Rust source is absent")]
fn every_slip_shows_in_the_recorded_cases() {
    with_oracle!({
        let mut shows = [0; SLIPS.len()];
        for case in harness::record::search::cases() {
            for (count, show) in shows.iter_mut().zip(shown(&case)) {
                *count += u64::from(show);
            }
        }
        for ((slip, _), count) in SLIPS.iter().zip(shows) {
            println!("{count:5} recorded cases show {slip:?}");
            assert!(count > 0 || *slip == NOT_RECORDED, "{slip:?}");
        }
    });
}
