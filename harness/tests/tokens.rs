//! Request 2026-02, an index made from tokens: the library's writer held to the judge, element by
//! element, and what it wrote lent to Search beside the Rust. LOT_SEARCH_CASES=1000000 runs more.
#![cfg_attr(not(all(oracle, linked)), allow(unused))]
#[macro_use]
mod common;
mod token_checks;

use common::*;
use harness::case::Case;
use harness::catalogue::Catalogue;
use harness::generate;
use harness::query::*;
use harness::random::Random;
use harness::tokens::compare::{call, needed};
use harness::tokens::norm_byte::norm_byte;
use harness::tokens::*;
use std::collections::BTreeMap;
use token_checks::examples::{counts, examples};
use token_checks::limits::{last_positions, limits, most_tokens, windows};
use token_checks::lists::{every_list, lists};
use token_checks::refusals::{damages, lowest, refusals};
use token_checks::{lengths, of_seed, written};

/// The body of a test that needs the library, ignored where that is absent.
macro_rules! with_writer {
    ($writer:ident, $body:block) => {
        #[cfg(linked)]
        {
            let $writer = harness::tokens::held();
            $body
        }
        #[cfg(not(linked))]
        panic!("the library is absent");
    };
}

/// The header has the judge's numbers.
#[test]
fn numbers_of_the_header() {
    let header = text("include/lot_search.h");
    for (name, number) in [
        ("LOT_TOKEN_WORDS", WORDS),
        ("LOT_MAX_TOKENS", MOST_TOKENS),
        ("LOT_RUN_WORDS", RUN_WORDS),
        ("LOT_WRITE_ANSWER", ANSWERED),
    ] {
        let define = ["#define", name, &number.to_string()];
        // a comment may follow
        let defines = |line: &str| line.split_whitespace().take(3).eq(define);
        assert!(header.lines().any(defines), "{define:?}");
    }
}

#[test]
#[cfg_attr(not(linked), ignore = "the library is absent")]
fn worked_examples() {
    with_writer!(writer, { examples(writer) });
}

/// The ascending lists with repeats of up to 4 of 8 tokens: 1 + 8 + 36 + 120 + 330.
#[test]
#[cfg_attr(not(linked), ignore = "the library is absent")]
fn every_small_list() {
    assert_eq!(lists(4).len(), 4681);
    with_writer!(writer, { every_list(writer, 4, 495) });
}

#[test]
#[cfg_attr(not(linked), ignore = "the library is absent")]
fn random_tokens() {
    with_writer!(writer, {
        let cases = cases();
        each(cases.div_ceil(2), |seed| of_seed(writer, seed, make::small));
        each(cases.div_ceil(150), |seed| {
            of_seed(writer, seed, make::large)
        });
        each(cases.div_ceil(100), |seed| {
            of_seed(writer, seed, make::all_leaves)
        });
    });
}

#[test]
#[cfg_attr(not(linked), ignore = "the library is absent")]
fn both_sides_of_the_limits() {
    with_writer!(writer, {
        limits(writer);
        counts(writer);
        windows(writer);
    });
}

#[test]
#[cfg_attr(not(linked), ignore = "the library is absent")]
fn the_most_tokens() {
    with_writer!(writer, {
        most_tokens(writer);
        last_positions(writer);
    });
}

#[test]
#[cfg_attr(not(linked), ignore = "the library is absent")]
fn the_most_documents_fields_and_leaves() {
    with_writer!(writer, {
        let mut random = Random::new(1);
        let made = make::widest(&mut random);
        assert_eq!(call(writer, &made, &needed(&made), &mut random), 0);
    });
}

#[test]
#[cfg_attr(not(linked), ignore = "the library is absent")]
fn refused_tokens() {
    with_writer!(writer, {
        refusals(writer);
        each(cases().div_ceil(1000), |seed| {
            damages(writer, !seed);
            lowest(writer, !seed);
        });
    });
}

#[test]
#[cfg_attr(not(linked), ignore = "the library is absent")]
fn lengths_of_outputs() {
    with_writer!(writer, { each(200, |seed| lengths(writer, seed)) });
}

/// The index of the same tokens as a catalogue has it, which counts and packs in its own way.
fn by_catalogue(made: &Tokens, idfs: &[u32], query: &Node) -> Case {
    let mut catalogue = Catalogue::new(made.n);
    let of_field = |field: u32| {
        let records = made.given().records().iter();
        records.filter(move |token| made.leaf_fields[token[0] as usize] == field)
    };
    for (number, field) in (0..).zip(made.fields.chunks(3)) {
        let count = |d| of_field(number).filter(|token| token[1] == d).count();
        let norms: Vec<_> = (0..made.n).map(|d| norm_byte(count(d) as u32)).collect();
        let norms = (field[1] == 1).then_some(&norms[..]);
        catalogue.field_with(f32::from_bits(field[0]), norms, field[2] == 1);
    }
    for ((leaf, field), idf) in (0..).zip(&made.leaf_fields).zip(idfs) {
        let mut run: BTreeMap<u32, Vec<u32>> = BTreeMap::new();
        let own = of_field(*field).filter(|token| token[0] == leaf);
        own.for_each(|token| run.entry(token[1]).or_default().push(token[2]));
        let idf = f32::from_bits(*idf);
        if made.given().has_positions(leaf) {
            let run: Vec<_> = run.iter().map(|(d, places)| (*d, &places[..])).collect();
            catalogue.leaf_of_positions(*field, idf, &run);
        } else {
            let run: Vec<_> = run.iter().map(|(d, all)| (*d, all.len() as u32)).collect();
            catalogue.leaf_of_frequencies(*field, idf, &run);
        }
    }
    catalogue.case(1, 0, query)
}

/// The written index is the catalogue's, and Search finds in it what the Rust finds.
#[cfg(all(oracle, linked))]
fn lent_to_search(writer: &dyn Writer, seed: u64) {
    let mut random = Random::new(seed);
    let made = match seed % 8 {
        0 => make::small(&mut random),
        _ => make::searched(&mut random),
    };
    let idf = |_: &u32| random.pick(&[ONE, X, Y, Z, 0x40a0_0000]);
    let idfs: Vec<_> = made.leaf_fields.iter().map(idf).collect();
    let told = written(writer, &made, &needed(&made)).unwrap();
    let mut case = made.case(&idfs, told, &match_all());
    assert_eq!(case, by_catalogue(&made, &idfs, &match_all()));
    if random.once_in(3) {
        case.live = (0..case.n.div_ceil(64)).map(|_| random.word()).collect();
    }
    for _ in 0..2 {
        let asked = generate::over(&mut random, case.clone());
        harness::compare::all(&harness::border::Library, &asked, &mut random);
    }
}

#[test]
#[cfg_attr(
    not(all(oracle, linked)),
    ignore = "the library or the Rust source is absent"
)]
fn searches_in_written_indexes() {
    #[cfg(all(oracle, linked))]
    with_writer!(writer, {
        each(cases().div_ceil(60), |seed| lent_to_search(writer, seed));
    });
    #[cfg(not(all(oracle, linked)))]
    panic!("the library or the Rust source is absent");
}
