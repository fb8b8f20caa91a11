//! Request 2026-03, failed readings: NaN values and NaN ends at every boundary, held to the judge of
//! the request; NaN ends at every place of an order beside the same order with that range's ends
//! crossed; NaN bales that would change a cost. LOT_SEARCH_CASES=1000000 runs more.
#![cfg_attr(not(all(oracle, linked)), allow(unused))]
#[macro_use]
mod common;

use common::*;
use harness::answer::{Hit, NO_MORE_DOCS, Paged, Searched};
use harness::border::Entries;
use harness::buffer::{Buffers, enough};
use harness::case::Case;
use harness::catalogue::Catalogue;
#[cfg(oracle)]
use harness::compare;
#[cfg(oracle)]
use harness::double::{Double, Wrong};
use harness::expect;
use harness::failed::beside::Beside;
#[cfg(oracle)]
use harness::failed::wrong::{Reading, WRONG};
use harness::failed::{Range, crossed, ends, example, failed, failed_end, failed_ranges, listed};
use harness::generate::{self, short};
use harness::query::*;
use harness::random::Random;
use harness::refusal::calls::Judge;
use std::collections::BTreeMap;
use std::panic::{AssertUnwindSafe, catch_unwind};
use std::sync::Mutex;
use std::sync::atomic::{AtomicU64, Ordering};

/// Patterns on both sides of where NaN begins and ends, each with and without a sign; 1 and 0.
fn patterns() -> Vec<u64> {
    let infinity = 0x7ff0 << 48;
    let quiet = 0x7ff8 << 48;
    let above = [
        0,
        1f64.to_bits(),
        infinity - 1,
        infinity,
        infinity + 1,
        quiet - 1,
        quiet,
        u64::MAX >> 1,
    ];
    [above, above.map(|bits| bits | 1 << 63)].concat()
}

/// A column of the patterns; then three absent values, with the bits of 1 and of both NaNs.
fn column(kind: u32) -> Catalogue {
    let patterns = patterns();
    let absent = [1f64.to_bits(), 0x7ff8 << 48, u64::MAX];
    let all = patterns.iter().map(|bits| (1, *bits));
    let all = all.chain(absent.map(|bits| (0, bits)));
    let words = all.flat_map(|(present, bits)| [present, bits as u32, (bits >> 32) as u32]);
    let mut index = Catalogue::new(patterns.len() as u32 + 3);
    index.column_of_words(kind, &words.collect::<Vec<_>>());
    index
}

/// Every range of every kind between two patterns, over either type of column.
fn boundaries() -> Vec<Case> {
    let mut all = Vec::new();
    for kind in [0, 1] {
        let index = column(kind);
        for kinds in 0..9 {
            let given = |end: u32| if end == 0 { vec![0] } else { patterns() };
            for lower in given(kinds % 3) {
                for upper in given(kinds / 3) {
                    all.push(index.case(20, 7, &range(0, kinds, lower, upper)));
                }
            }
        }
    }
    all
}

/// The values of the range that is the whole order.
fn root(case: &Case) -> Range {
    case.query[3..RECORD].try_into().unwrap()
}

/// What Search and Page must give for a range that lists these: each scores 1.
fn lists(entries: &dyn Entries, case: &Case, documents: &[u32], random: &mut Random) {
    let hit = |document: &u32| Hit {
        document: *document,
        bits: ONE,
    };
    let hits: Vec<_> = documents.iter().map(hit).collect();
    let (count, k) = (hits.len() as u64, case.k as usize);
    let found = Searched {
        hits: hits[..k.min(hits.len())].to_vec(),
        count,
        mark: count > u64::from(case.t) && count >= k as u64,
    };
    let needed = Judge::new(case).needed;
    let lent = enough(random, &needed, case.k, 0);
    let mut buffers = Buffers::new(random, &lent);
    let number = entries.search(buffers.search(case, case.k, case.t));
    expect::found(&buffers, number, &Ok(found));
    let m = random.below(case.n + 2) as usize;
    let lent = enough(random, &needed, 0, m);
    let mut buffers = Buffers::new(random, &lent);
    let target = random.pick(&[0, 0, 1, case.n / 2, case.n]);
    let number = entries.page(buffers.page(case, target));
    let mut hits: Vec<_> = hits
        .into_iter()
        .filter(|hit| hit.document >= target)
        .collect();
    let next = hits.get(m).map_or(NO_MORE_DOCS, |hit| hit.document);
    hits.truncate(m);
    expect::given(&buffers, number, &Ok(Paged { hits, next }));
}

fn at_boundary(entries: &dyn Entries, case: &Case, random: &mut Random) {
    lists(entries, case, &listed(case, root(case)), random);
}

#[test]
#[cfg_attr(not(linked), ignore = "the library is absent")]
fn every_boundary() {
    with_linked!(library, {
        let cases = boundaries();
        assert_eq!(cases.len(), 2 * (4 * 256 + 4 * 16 + 1));
        each_of(&cases, |case, random| at_boundary(library, case, random));
    });
}

/// Which patterns an unbounded range lists, by the request's words and not by the judge.
#[test]
fn the_judge_at_the_boundaries() {
    for (bits, is_nan) in [
        (0x7ff0_0000_0000_0000, false),
        (0x7ff0_0000_0000_0001, true),
        (0xfff0_0000_0000_0000, false),
        (0xfff0_0000_0000_0001, true),
        (0x7fff_ffff_ffff_ffff, true),
        (0xffff_ffff_ffff_ffff, true),
    ] {
        assert!(patterns().contains(&bits));
        assert_eq!(failed(1, bits), is_nan, "{bits:016x}");
        assert!(!failed(0, bits), "{bits:016x}");
    }
    for case in boundaries() {
        let range = root(&case);
        let inside = |document: &u32| plain::in_range(&case, range, *document);
        let plainly: Vec<_> = (0..case.n).filter(inside).collect();
        assert_eq!(listed(&case, range), plainly, "{range:?}");
    }
}

/// The request's worked examples, and the scores that a NaN bale would change.
fn examples(entries: &dyn Entries) {
    let mut random = Random::new(1);
    for (case, documents) in example::ranges() {
        assert_eq!(listed(&case, root(&case)), documents);
        lists(entries, &case, &documents, &mut random);
    }
    for (case, bits) in example::costs() {
        let needed = Judge::new(&case).needed;
        let lent = enough(&mut random, &needed, case.k, 0);
        let mut buffers = Buffers::new(&mut random, &lent);
        let number = entries.search(buffers.search(&case, case.k, case.t));
        let hits = vec![Hit { document: 0, bits }];
        let (count, mark) = (1, false);
        expect::found(&buffers, number, &Ok(Searched { hits, count, mark }));
    }
}

#[test]
#[cfg_attr(not(linked), ignore = "the library is absent")]
fn worked_examples() {
    with_linked!(library, { examples(library) });
}

/// The Rust, given NaN as absent, lists and scores what the examples say.
#[test]
#[cfg_attr(not(oracle), ignore = "the Rust source is absent")]
fn worked_examples_beside_the_rust() {
    with_oracle!({
        for (case, listed) in example::ranges() {
            assert_eq!(documents(&case), listed);
        }
        for (case, bits) in example::costs() {
            assert_eq!(list(&case), [(0, bits)]);
            let costs = [Reading::Counted, Reading::EndCounted, Reading::NoScorer];
            let other = |reading: &Reading| list(&reading.of(&case)) != [(0, bits)];
            let shown = costs.iter().filter(|reading| other(reading)).count();
            assert!(shown > 0, "no wrong cost shows");
        }
    });
}

/// The case of a seed that has a NaN end; how many documents match.
fn with_failed_end(entries: &dyn Entries, seed: u64) -> u64 {
    let case = generate::with_failed_end(seed);
    Beside::new(entries, &case, &mut Random::new(!seed)).all()
}

/// A sixth as many cases as the differential run has.
#[test]
#[cfg_attr(not(linked), ignore = "the library is absent")]
fn failed_ends_as_crossed_ones() {
    with_linked!(library, {
        let (cases, matching) = (cases().div_ceil(6), AtomicU64::new(0));
        each(cases, |seed| {
            let count = with_failed_end(library, seed);
            matching.fetch_add(u64::from(count > 0), Ordering::Relaxed);
        });
        let matching = matching.into_inner();
        println!("{cases} cases with a NaN end, {matching} match");
        assert!(3 * matching > cases);
    });
}

/// The crossed orders themselves are the Rust's, so that both can't be wrong alike.
#[test]
#[cfg_attr(
    not(all(oracle, linked)),
    ignore = "the library or the Rust source is absent"
)]
fn crossed_ends_beside_the_rust() {
    with_library!(library, {
        each(cases().div_ceil(30), |seed| {
            let case = crossed(&generate::with_failed_end(seed));
            compare::all(library, &case, &mut Random::new(!seed));
        });
    });
}

/// Every range between the patterns of an order of f64 values that has a NaN end.
#[test]
#[cfg_attr(not(linked), ignore = "the library is absent")]
fn every_short_range_with_a_failed_end() {
    with_linked!(library, {
        let cases = short::ranges_with_failed_ends();
        assert!(cases.len() > 1000);
        each_of(&cases, |case, random| {
            Beside::new(library, case, random).all();
        });
    });
}

/// How often a range with a NaN end stands as a name says.
type Reach = BTreeMap<String, u32>;

fn note(reach: &mut Reach, name: impl Into<String>, reached: bool) {
    *reach.entry(name.into()).or_default() += u32::from(reached);
}

/// Where a range with a NaN end stands: the kind of node above it, 0 for none, and its level.
struct Place<'a> {
    range: &'a Node,
    above: u32,
    level: u32,
}

/// The places below a node.
fn places<'a>(case: &Case, range: &'a Node, above: u32, level: u32) -> Vec<Place<'a>> {
    if range.kind == RANGE && failed_end(case.columns[range.values[0] as usize], range.values) {
        return vec![Place {
            range,
            above,
            level,
        }];
    }
    let below = range.children.iter();
    let below = below.flat_map(|child| places(case, child, range.kind, level + 1));
    below.collect()
}

fn reached(case: &Case, reach: &mut Reach) {
    let root = Node::decode(&case.query).unwrap();
    let places = places(case, &root, 0, 1);
    assert_eq!(places.len(), failed_ranges(case).len());
    note(reach, "two or more in an order", places.len() > 1);
    note(reach, "whole words of 32 documents", case.n >= 32);
    let ranges = root.all().iter().filter(|node| node.kind == RANGE).count();
    note(reach, "another range beside it", ranges > places.len());
    for place in places {
        noted(&place, reach);
        for (name, end) in ["lower", "upper"].into_iter().zip(ends(place.range.values)) {
            noted_end(name, end, reach);
        }
    }
}

fn noted(place: &Place, reach: &mut Reach) {
    note(reach, "the whole order", place.above == 0);
    note(reach, "below ConstantScore", place.above == CONSTANT_SCORE);
    note(reach, "below Boost", place.above == BOOST);
    for occurrence in 1..5 {
        let below = place.above == BOOLEAN && place.range.occurrence == occurrence;
        note(reach, format!("occurrence {occurrence}"), below);
    }
    for level in [1, 2, 3, 4, 5, 6, 7, 16] {
        note(reach, format!("level {level}"), place.level == level);
    }
    for kinds in 1..9 {
        let own = place.range.values[1] == kinds;
        note(reach, format!("kinds {kinds}"), own);
    }
}

fn noted_end(name: &str, (end, bits): (u32, u64), reach: &mut Reach) {
    for (sign, quiet) in [(0, 0), (0, 1), (1, 0), (1, 1)] {
        for given in [1, 2] {
            let name = format!("{name} end {given}, sign {sign}, quiet {quiet}");
            let own = bits >> 63 == sign && bits >> 51 & 1 == quiet;
            note(reach, name, end == given && failed(1, bits) && own);
        }
    }
}

#[test]
fn failed_ends_stand_everywhere() {
    let reach = Mutex::new(Reach::default());
    each(20_000, |seed| {
        let case = generate::with_failed_end(seed);
        assert_eq!(harness::refusal::refusal(&case), 0);
        reached(&case, &mut reach.lock().unwrap());
    });
    for (name, count) in reach.into_inner().unwrap() {
        println!("{count:7} {name}");
        assert!(count >= 20, "{name}");
    }
}

/// A check that a library passes or does not.
#[cfg(oracle)]
type Check = fn(&dyn Entries);

#[cfg(oracle)]
const BOUNDARIES: Check = |entries| {
    let mut random = Random::new(1);
    for case in boundaries() {
        at_boundary(entries, &case, &mut random);
    }
};

/// The differential run.
#[cfg(oracle)]
const VALUES: Check = |entries| {
    for seed in 0..600 {
        let case = generate::case(seed);
        compare::all(entries, &case, &mut Random::new(!seed));
    }
};

#[cfg(oracle)]
const ENDS: Check = |entries| {
    for seed in 0..600 {
        with_failed_end(entries, seed);
    }
};

/// Which checks have to catch a wrong reading. The differential run leaves out NaN ends, and what a
/// range costs does not show where it is the whole order.
#[cfg(oracle)]
fn catching(reading: Reading) -> Vec<Check> {
    match reading {
        Reading::Counted => vec![examples, VALUES],
        Reading::EndCounted | Reading::NoScorer => vec![examples, ENDS],
        Reading::EndsOrdered | Reading::LowerOpen | Reading::UpperOpen | Reading::IncludedEnds => {
            vec![BOUNDARIES, examples, ENDS]
        }
        Reading::Infinity
        | Reading::MinusInfinity
        | Reading::Whole
        | Reading::EndGiven
        | Reading::Absent => vec![BOUNDARIES, examples, VALUES],
        _ => vec![BOUNDARIES, examples, VALUES, ENDS],
    }
}

#[test]
#[cfg_attr(not(oracle), ignore = "the Rust source is absent")]
fn right_readings_pass() {
    with_oracle!({
        for wrong in [Wrong::Nothing, Wrong::Reads(Reading::Right)] {
            let checks = catching(Reading::Right);
            checks.iter().for_each(|check| check(&Double(wrong)));
        }
    });
}

#[test]
#[cfg_attr(not(oracle), ignore = "the Rust source is absent")]
fn wrong_readings_are_caught() {
    with_oracle!({
        each_of(&WRONG, |reading, _| {
            let double = Double(Wrong::Reads(*reading));
            for (at, check) in catching(*reading).into_iter().enumerate() {
                let run = AssertUnwindSafe(|| check(&double));
                assert!(catch_unwind(run).is_err(), "{reading:?} by check {at}");
            }
        });
    });
}
