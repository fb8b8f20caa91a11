//! What every writer of an index has to pass; each test file uses its own part.
#![allow(dead_code)]
pub mod examples;
pub mod limits;
pub mod lists;
pub mod refusals;

use crate::common::each;
use harness::random::Random;
use harness::tokens::compare::{all, long_enough, too_short};
use harness::tokens::example::example;
use harness::tokens::outputs::Outputs;
use harness::tokens::*;

/// A call with outputs that are exactly long enough, and with longer ones.
pub fn number(writer: &dyn Writer, tokens: &Tokens) -> u32 {
    all(writer, tokens, &mut Random::new(1))
}

/// What a writer gives in outputs so long, whatever the judge says.
pub fn written(writer: &dyn Writer, tokens: &Tokens, lent: &Lengths) -> Result<Written, u32> {
    let mut outputs = Outputs::new(&mut Random::new(1), lent);
    match writer.write(outputs.write(tokens.given())) {
        0 => Ok(outputs.told(&Lengths {
            norms: tokens.n as usize * tokens.given().with_norms().count(),
            runs: RUN_WORDS * tokens.leaf_fields.len(),
            ..*lent
        })),
        number => Err(number),
    }
}

pub fn of_seed(writer: &dyn Writer, seed: u64, make: fn(&mut Random) -> Tokens) {
    let mut random = Random::new(seed);
    let made = make(&mut random);
    assert_eq!(all(writer, &made, &mut random), 0);
}

/// Each output too short, exactly long enough, and longer.
pub fn lengths(writer: &dyn Writer, seed: u64) {
    let mut random = Random::new(seed);
    for make in [make::small, make::large, make::searched] {
        let made = make(&mut random);
        too_short(writer, &made, &mut random);
        long_enough(writer, &made, &mut random);
    }
    too_short(writer, &example(), &mut random);
    long_enough(writer, &example(), &mut random);
}

/// A name, and what a writer has to pass.
pub type Check = (&'static str, fn(&dyn Writer));

/// What every writer has to pass, the shorter first.
pub const CHECKS: [Check; 9] = [
    ("examples", examples::examples),
    ("every list of three", |writer| {
        lists::every_list(writer, 3, 165)
    }),
    ("small", |writer| {
        each(500, |seed| of_seed(writer, seed, make::small));
    }),
    ("lengths", |writer| each(10, |seed| lengths(writer, seed))),
    ("refusals", refusals::refusals),
    ("limits", limits::limits),
    ("counts", examples::counts),
    ("large", |writer| {
        each(20, |seed| of_seed(writer, seed, make::large));
    }),
    ("windows", limits::windows),
];
