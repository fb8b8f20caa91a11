//! Search beside the Rust in cases aimed at the bitmaps of ranges, and what these cases reach.
//!
//! Wrong forms of the bitmaps were built without proof and run: the first case of
//! `cases_beside_the_rust` that shows each, of `every_range_of_the_patterns`, and of the first 5,000
//! of `generated_cases` in tests/differential.rs.
//!
//! | what is wrong                                                      | here | every | there |
//! |--------------------------------------------------------------------|-----:|------:|------:|
//! | f64 below 0 go by the interval of the bits                         |    5 |  2894 |    85 |
//! | only where the range ends from 0 on                                |    5 |  2894 |    85 |
//! | only where it ends below 0                                         |   15 |  2935 |   171 |
//! | only where it begins at -0.0                                       |  115 |  2903 |  3435 |
//! | a range that lets nothing in has an interval                       |    2 |   379 |   282 |
//! | the interval is one too short                                      |    1 |   361 |   123 |
//! | one too long                                                       |    6 |   361 |   282 |
//! | it begins one too late                                             |    1 |   363 |   260 |
//! | one too early                                                      |    1 |   363 |   111 |
//! | at the key of the first value, not at its bits                     |    1 |   363 |    18 |
//! | the high half of a value's bits is not read                        |    1 |   363 |    18 |
//! | absent values are listed                                           |    6 |   361 |    18 |
//! | a word's first document stands at bit 31                           |    1 |     0 |     4 |
//! | the documents after the last whole word are left out               |    3 |     0 |     4 |
//! | only the last of them                                              |    3 |     0 |    10 |
//! | the last whole word is, where no document follows it               |    9 |   361 |   171 |
//!
//! Of the patterns' ranges the first are of i64: 361 with 31 documents, and so many with 32.
#![cfg_attr(not(all(oracle, linked)), allow(unused))]
#[macro_use]
mod common;

use common::reach::Reach;
use common::{Seed, each, each_of, plain};
use harness::border::Entries;
use harness::case::Case;
#[cfg(oracle)]
use harness::compare::Compare;
use harness::failed::beside::Beside;
use harness::failed::{Range, ends, failed, has_failed_end, listed};
use harness::query::*;
use harness::random::Random;
use harness::ranges::{self, SIZES, WORD};
use harness::refusal::order;

const CASES: u64 = 20_000;

/// Of these cases it is counted what they reach.
const COUNTED: u64 = 8000;

#[cfg(oracle)]
fn beside(entries: &dyn Entries, case: &Case, random: &mut Random) {
    let mut calls = Compare::new(entries, case, random);
    assert_eq!(calls.right.judge.order, 0);
    calls.asked();
}

#[test]
#[cfg_attr(
    not(all(oracle, linked)),
    ignore = "the library or the Rust source is absent"
)]
fn cases_beside_the_rust() {
    with_library!(library, {
        each(CASES, |seed| {
            beside(library, &ranges::case(seed), &mut Random::new(!seed));
        });
    });
}

/// Those with a NaN end are asked beside the same range with its ends crossed.
#[test]
#[cfg_attr(
    not(all(oracle, linked)),
    ignore = "the library or the Rust source is absent"
)]
fn every_range_of_the_patterns() {
    with_library!(library, {
        let cases = ranges::every();
        assert_eq!(cases.len(), 5 * (4 * (81 + 256) + 4 * (9 + 16) + 2));
        each_of(&cases, |case, random| match has_failed_end(case) {
            true => assert_eq!(Beside::new(library, case, random).all(), 0),
            false => beside(library, case, random),
        });
    });
}

/// A range of a case, and the documents that it lists.
struct Asked<'a> {
    case: &'a Case,
    range: Range,
    name: &'static str,
    float: bool,
    listed: Vec<u32>,
}

impl<'a> Asked<'a> {
    fn new(case: &'a Case, range: Range) -> Asked<'a> {
        let float = case.columns[range[0] as usize] == 1;
        Asked {
            case,
            range,
            name: if float { "f64" } else { "i64" },
            float,
            listed: listed(case, range),
        }
    }

    /// The documents of whole words, or those of the rest of the last word.
    fn documents(&self, whole: bool) -> std::ops::Range<u32> {
        let end = self.case.n / WORD * WORD;
        if whole { 0..end } else { end..self.case.n }
    }

    /// Whether some value of whole words, or of the rest, is so.
    fn has(&self, whole: bool, test: impl Fn(u64) -> bool) -> bool {
        let mut documents = self.documents(whole);
        documents.any(|d| plain::value(self.case, self.range[0], d).is_some_and(&test))
    }

    /// Whether whole words, or the rest, have a document that is listed and one that is not.
    fn parts(&self, whole: bool) -> bool {
        let lists = |document: u32| self.listed.contains(&document);
        let mut documents = self.documents(whole);
        documents.clone().any(lists) && !documents.all(lists)
    }
}

/// Where an end lies.
fn side(end: u32, bits: u64) -> &'static str {
    match (end, bits >> 63) {
        (0, _) => "open",
        (_, 0) => "0 or above",
        _ => "below 0",
    }
}

fn sides(asked: &Asked, reach: &mut Reach) {
    let own = ends(asked.range).map(|(end, bits)| side(end, bits));
    let all = ["open", "0 or above", "below 0"];
    for lower in all {
        for upper in all {
            for (part, whole) in [("a whole word", true), ("the last word", false)] {
                let name = format!("{}, {lower} to {upper}, parts {part}", asked.name);
                let crossed = [lower, upper] == ["0 or above", "below 0"];
                if !crossed {
                    reach.note(name, own == [lower, upper] && asked.parts(whole));
                }
            }
        }
    }
    let (name, whole) = (asked.name, asked.documents(true));
    let crossed = own == ["0 or above", "below 0"] && !whole.is_empty();
    reach.note(format!("{name}, 0 or above to below 0"), crossed);
}

/// Ends at which an order of numbers may slip, in whole words of values on either side.
fn edges(asked: &Asked, reach: &mut Reach) {
    let float = [-0.0, 0.0, f64::INFINITY, f64::NEG_INFINITY].map(f64::to_bits);
    let whole = [-1, 0, i64::MIN, i64::MAX].map(|value| value as u64);
    for edge in if asked.float { float } else { whole } {
        for (name, (end, bits)) in ["lower", "upper"].into_iter().zip(ends(asked.range)) {
            for (given, kind) in [("included", 1), ("excluded", 2)] {
                let name = format!("{}, {name} end {edge:016x} {given}", asked.name);
                let own = end == kind && bits == edge;
                reach.note(name, own && !asked.documents(true).is_empty());
            }
        }
    }
}

/// Values at the ends of what is let in, and on either side.
fn beside_the_ends(asked: &Asked, reach: &mut Reach) {
    let [(lower, a), (upper, b)] = ends(asked.range);
    let [a, b] = [a, b].map(|bits| i128::from(plain::place(asked.float, bits)));
    let first = a + i128::from(lower == 2);
    let last = b - i128::from(upper == 2);
    let given = lower > 0 && upper > 0 && first <= last;
    let at = |wanted: i128| {
        let stands = |bits: u64| i128::from(plain::place(asked.float, bits)) == wanted;
        asked.has(true, stands)
    };
    for (name, place) in [
        ("before the first", first - 1),
        ("the first", first),
        ("the last", last),
        ("after the last", last + 1),
    ] {
        let name = format!("{}, a value is {name} that is let in", asked.name);
        reach.note(name, given && at(place));
    }
    let one = format!("{}, one value is let in", asked.name);
    reach.note(one, given && first == last && at(first));
    let none = format!("{}, none is let in", asked.name);
    reach.note(none, lower > 0 && upper > 0 && first > last && at(a));
}

/// Values that are not there, or are NaN, and whose bits lie between the ends.
fn left_out(asked: &Asked, reach: &mut Reach) {
    let [column, ..] = asked.range;
    let mut present = asked.case.clone();
    present.values.chunks_mut(3).for_each(|value| value[0] = 1);
    for (part, whole) in [("a whole word", true), ("the last word", false)] {
        let absent = |d: &u32| plain::value(asked.case, column, *d).is_none();
        let mut documents = asked.documents(whole).filter(absent);
        let name = format!("{}, an absent value between the ends in {part}", asked.name);
        reach.note(
            name,
            documents.any(|d| plain::in_range(&present, asked.range, d)),
        );
        for (sign, name) in [(0, "NaN"), (1, "minus NaN")] {
            let nan = |bits: u64| failed(1, bits) && bits >> 63 == sign;
            let name = format!("f64, {name} beside what {part} lists");
            reach.note(
                name,
                asked.float && asked.has(whole, nan) && asked.parts(whole),
            );
        }
    }
}

/// How the bits of the words stand.
fn words(asked: &Asked, reach: &mut Reach) {
    let n = asked.case.n;
    let lists = |document: u32| asked.listed.contains(&document);
    let word = |word: u32| move |at: u32| WORD * word + at;
    let mut whole = (0..n / WORD).map(word);
    let turned = |d: &dyn Fn(u32) -> u32| (0..WORD).any(|at| lists(d(at)) != lists(d(31 - at)));
    reach.note(
        "a whole word differs turned round",
        whole.any(|d| turned(&d)),
    );
    for place in [0, WORD - 1] {
        let alone = |d: &dyn Fn(u32) -> u32| (0..WORD).all(|at| lists(d(at)) == (at == place));
        let has = (0..n / WORD).map(word).any(|d| alone(&d));
        reach.note(format!("document {place} of a whole word alone"), has);
    }
    let rest = asked.documents(false);
    reach.note(
        "the last document of a last word",
        n % WORD > 1 && lists(n - 1),
    );
    reach.note(
        "the first document of a last word",
        n % WORD > 1 && lists(rest.start),
    );
    reach.note(
        "the only document of a last word",
        n % WORD == 1 && lists(n - 1),
    );
    reach.note("no last word", n.is_multiple_of(WORD) && lists(n - 1));
}

#[test]
fn the_bitmaps_are_reached() {
    let mut reach = Reach::default();
    for seed in 0..COUNTED {
        let _seed = Seed(seed);
        let case = ranges::case(seed);
        assert_eq!(order(&case), 0);
        assert!(!has_failed_end(&case));
        for n in SIZES {
            reach.note(format!("N {n}"), case.n == n);
        }
        let root = Node::decode(&case.query).unwrap();
        for node in root.all().into_iter().filter(|node| node.kind == RANGE) {
            let asked = Asked::new(&case, node.values);
            #[cfg(oracle)]
            assert_eq!(harness::oracle::range(&case, node.values), asked.listed);
            for check in [sides, edges, beside_the_ends, left_out, words] {
                check(&asked, &mut reach);
            }
        }
    }
    reach.each_at_least(10);
}
