//! The library beside the Rust and the judge: Search, Page and Pick, bit for bit, and every element
//! of every buffer. LOT_SEARCH_CASES=1000000 runs more generated cases.
#![cfg_attr(not(all(oracle, linked)), allow(unused))]
#[macro_use]
mod common;

use common::{cases, each, each_of};
use harness::border::Entries;
use harness::boundary;
use harness::case::Case;
use harness::catalogue::Catalogue;
#[cfg(oracle)]
use harness::compare::{self, Compare, picks};
#[cfg(oracle)]
use harness::double::{Double, WRONG, Wrong};
use harness::generate::{self, short};
use harness::lots::{self, WORKLOADS};
use harness::query::{Node, RECORD};
use harness::random::Random;
use harness::refusal::calls::{FOUND, Lengths, PAGED};
use std::panic::{AssertUnwindSafe, catch_unwind};
use std::thread;

#[cfg(oracle)]
fn generated(entries: &dyn Entries, seed: u64) {
    let case = generate::case(seed);
    compare::all(entries, &case, &mut Random::new(!seed));
}

#[test]
#[cfg_attr(
    not(all(oracle, linked)),
    ignore = "the library or the Rust source is absent"
)]
fn generated_cases() {
    with_library!(library, {
        each(cases(), |seed| generated(library, seed));
    });
}

/// All queries of a list on an index.
#[cfg(oracle)]
fn asked(entries: &dyn Entries, index: &Catalogue, queries: &[Node], random: &mut Random) {
    let mut case = index.case(4, 1, &queries[0]);
    for query in queries {
        case.query = query.words();
        short_case(entries, &case, random);
    }
}

#[cfg(oracle)]
fn short_case(entries: &dyn Entries, case: &Case, random: &mut Random) {
    let mut calls = Compare::new(entries, case, random);
    calls.asked();
    calls.pages();
}

#[test]
#[cfg_attr(
    not(all(oracle, linked)),
    ignore = "the library or the Rust source is absent"
)]
fn every_short_boolean() {
    with_library!(library, {
        for (n, leaves) in [(0, 2), (1, 3), (2, 3), (3, 2)] {
            let queries = short::booleans(leaves);
            let indexes = short::indexes(n, leaves);
            each_of(&indexes, |index, random| {
                asked(library, index, &queries, random)
            });
        }
        let queries = short::nested();
        each_of(&short::indexes(2, 2), |index, random| {
            asked(library, index, &queries, random)
        });
    });
}

#[test]
#[cfg_attr(
    not(all(oracle, linked)),
    ignore = "the library or the Rust source is absent"
)]
fn every_short_phrase_and_range() {
    with_library!(library, {
        let cases = [short::phrases(), short::ranges()].concat();
        each_of(&cases, |case, random| short_case(library, case, random));
    });
}

/// More documents than a page of memory has, more hits than the heap holds.
#[test]
#[cfg_attr(
    not(all(oracle, linked)),
    ignore = "the library or the Rust source is absent"
)]
fn larger_catalogues() {
    with_library!(library, { each(200, |seed| larger(library, seed)) });
}

#[cfg(oracle)]
fn larger(entries: &dyn Entries, seed: u64) {
    let mut random = Random::new(seed);
    let workload = &WORKLOADS[seed as usize % WORKLOADS.len()];
    let n = random.within(1000, 6000);
    let mut case = lots::case(workload, n, seed);
    case.k = random.pick(&[1, 2, 10, 100, 1023, 1024]);
    let mut calls = Compare::new(entries, &case, &mut random);
    calls.asked();
    calls.pages();
    picks::made(entries, n as usize, &mut random);
}

/// Each case from both sides of the boundaries of 1 to 10, which Search and Page share.
#[test]
#[cfg_attr(
    not(all(oracle, linked)),
    ignore = "the library or the Rust source is absent"
)]
fn every_boundary() {
    with_library!(library, {
        let cases = boundary::all();
        each_of(&cases, |(number, case), random| {
            at_boundary(library, *number, case, random)
        });
    });
}

/// Frequencies at their limit where there are positions.
#[test]
#[cfg_attr(
    not(all(oracle, linked)),
    ignore = "the library or the Rust source is absent"
)]
fn large_frequencies() {
    with_library!(library, {
        for (number, case) in boundary::large() {
            at_boundary(library, number, &case, &mut Random::new(1));
        }
    });
}

#[cfg(oracle)]
fn at_boundary(entries: &dyn Entries, number: u32, case: &Case, random: &mut Random) {
    let mut calls = Compare::new(entries, case, random);
    assert_eq!(calls.right.judge.order, number, "{case:?}");
    let lent = Lengths {
        hits: case.k as usize,
        documents: 2,
        scores: 2,
        answer: FOUND,
        ..calls.right.judge.needed
    };
    calls.search(case.k, case.t, &lent);
    calls.page(0, &lent);
}

/// Each buffer exactly long enough and one too short; k, target and the answer at their limits.
#[test]
#[cfg_attr(
    not(all(oracle, linked)),
    ignore = "the library or the Rust source is absent"
)]
fn every_limit_of_the_caller() {
    with_library!(library, { limits(library) });
}

#[cfg(oracle)]
fn limits(entries: &dyn Entries) {
    let case = boundary::sound();
    let mut random = Random::new(1);
    let mut calls = Compare::new(entries, &case, &mut random);
    let enough = Lengths {
        hits: 1024,
        documents: 2,
        scores: 2,
        answer: FOUND,
        ..calls.right.judge.needed
    };
    for k in [0, 1, 2, 1023, 1024, 1025, u32::MAX] {
        for hits in [0, 1, 2, 1022, 1023, 1024, 1025] {
            for answer in [0, FOUND - 1, FOUND, FOUND + 1] {
                let lent = Lengths {
                    hits,
                    answer,
                    ..enough
                };
                calls.search(k, 1, &lent);
            }
        }
    }
    let one_less: [fn(&mut Lengths); 4] = [
        |lent| lent.states -= 1,
        |lent| lent.starts -= 1,
        |lent| lent.other_starts -= 1,
        |lent| lent.ranges -= 1,
    ];
    for target in [0, case.n, case.n + 1, u32::MAX] {
        for (documents, scores) in [(0, 0), (0, 1), (1, 0), (2, 2), (3, 2)] {
            for answer in [0, PAGED - 1, PAGED, PAGED + 1] {
                let lent = Lengths {
                    documents,
                    scores,
                    answer,
                    ..enough
                };
                calls.page(target, &lent);
            }
        }
        for less in one_less {
            let mut lent = enough;
            less(&mut lent);
            calls.page(target, &lent);
            calls.search(1, 1, &lent);
            calls.search(0, 1, &lent);
        }
    }
}

/// The deepest and the longest query on a stack of 64 KiB.
#[test]
#[cfg_attr(
    not(all(oracle, linked)),
    ignore = "the library or the Rust source is absent"
)]
fn the_library_s_own_stack() {
    with_library!(library, {
        let deep = WORKLOADS
            .iter()
            .find(|workload| workload.name == "deep tree");
        let mut generated = (0..).map(generate::case);
        let long = generated.find(|case| case.query.len() == 256 * RECORD);
        for case in [lots::case(deep.unwrap(), 500, 1), long.unwrap()] {
            on_small_stack(library, &case);
        }
    });
}

#[cfg(oracle)]
fn on_small_stack(entries: &dyn Entries, case: &Case) {
    let right = harness::expect::Right::new(case);
    let lent = Lengths {
        hits: case.k as usize,
        answer: FOUND,
        ..right.judge.needed
    };
    let mut buffers = harness::buffer::Buffers::new(&mut Random::new(1), &lent);
    let call = buffers.search(case, case.k, case.t);
    let number = thread::scope(|scope| {
        let builder = thread::Builder::new().stack_size(64 * 1024);
        let called = builder.spawn_scoped(scope, || entries.search(call));
        called.unwrap().join().unwrap()
    });
    let found = right.search(case.k, case.t, &lent);
    harness::expect::found(&buffers, number, &found);
}

/// The same run with the judge and the Rust in place of the library.
#[test]
#[cfg_attr(not(oracle), ignore = "the Rust source is absent")]
fn the_double_is_right() {
    with_oracle!({
        let double = &Double(Wrong::Nothing);
        each(300, |seed| generated(double, seed));
        each(WORKLOADS.len() as u64, |seed| larger(double, seed));
        let cases: Vec<_> = boundary::all().into_iter().step_by(17).collect();
        each_of(&cases, |(number, case), random| {
            at_boundary(double, *number, case, random)
        });
        let cases = [short::phrases(), short::ranges()].concat();
        each(150, |at| {
            let case = &cases[61 * at as usize % cases.len()];
            short_case(double, case, &mut Random::new(at));
        });
        limits(double);
    });
}

/// Each wrong library is caught, most by the first few cases.
#[test]
#[cfg_attr(not(oracle), ignore = "the Rust source is absent")]
fn wrong_libraries_are_caught() {
    with_oracle!({
        for wrong in WRONG {
            let double = Double(wrong);
            let caught = |seed: &u64| {
                let run = AssertUnwindSafe(|| generated(&double, *seed));
                catch_unwind(run).is_err()
            };
            let first = (0..200).find(caught);
            println!("{wrong:?} is caught at {first:?}");
            assert!(first.is_some(), "{wrong:?}");
        }
    });
}
