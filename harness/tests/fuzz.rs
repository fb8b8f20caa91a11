//! The checks of the fuzz run catch each wrong library: with the Rust all, by the laws alone all but
//! one that hangs together; and each wrong writer of an index.
#![cfg_attr(not(oracle), allow(unused))]
#[macro_use]
mod common;

use common::Seed;
#[cfg(oracle)]
use harness::double::{Double, WRONG, Wrong};
#[cfg(oracle)]
use harness::failed::wrong::{Reading, WRONG as READINGS};
use harness::fuzz::input::Inputs;
use harness::fuzz::{Against, Fuzz, Plain};
use harness::random::Random;
use harness::tokens::judge::Judge;
use harness::tokens::wrong::{self, Wrong as WrongTo, WrongWriter};
use std::panic::{AssertUnwindSafe, catch_unwind};

#[cfg(oracle)]
const BOTH: [Against; 2] = [Against::Rust, Against::LawsAlone];

/// What hangs together and is wrong: no law sees it.
#[cfg(oracle)]
const UNSEEN: Wrong = Wrong::ScoresUp;

#[cfg(oracle)]
fn fuzz<'a>(
    double: &'a Double,
    inputs: &'a Inputs,
    against: Against,
    lend: &'a mut Plain,
) -> Fuzz<'a> {
    Fuzz {
        entries: double,
        writer: &Judge,
        inputs,
        against,
        lend,
    }
}

#[test]
#[cfg_attr(not(oracle), ignore = "the Rust source is absent")]
fn the_double_passes() {
    with_oracle!({
        let inputs = Inputs::new();
        for against in BOTH {
            let (mut accepted, mut crossed) = ([0; 4], 0);
            for seed in 0..1500 {
                let _seed = Seed(seed);
                let made = fuzz(&Double(Wrong::Nothing), &inputs, against, &mut Plain).call(seed);
                accepted[made.entry] += u32::from(made.number == 0);
                crossed += u32::from(made.crossed);
            }
            println!("{against:?}: {accepted:?} accepted, {crossed} with a NaN end");
            assert!(accepted.iter().all(|number| *number > 50) && crossed > 20);
        }
    });
}

#[test]
#[cfg_attr(not(oracle), ignore = "the Rust source is absent")]
fn wrong_libraries_are_caught() {
    with_oracle!({
        let inputs = Inputs::new();
        for wrong in WRONG {
            for against in BOTH {
                let double = Double(wrong);
                let caught = |seed: &u64| {
                    let run = || fuzz(&double, &inputs, against, &mut Plain).call(*seed);
                    catch_unwind(AssertUnwindSafe(run)).is_err()
                };
                let unseen = wrong == UNSEEN && against == Against::LawsAlone;
                let end = if unseen { 300 } else { 6000 };
                let first = (0..end).find(caught);
                println!("{wrong:?} is caught at {first:?}, {against:?}");
                assert_eq!(first.is_none(), unseen, "{wrong:?} {against:?}");
            }
        }
    });
}

/// Wrong readings of request 2026-03: by the laws alone those that differ where an end is NaN.
#[cfg(oracle)]
const OF_ENDS: [Reading; 11] = [
    Reading::Before,
    Reading::Quiet,
    Reading::Signalling,
    Reading::Positive,
    Reading::Negative,
    Reading::EndsOrdered,
    Reading::LowerOpen,
    Reading::UpperOpen,
    Reading::IncludedEnds,
    Reading::EndCounted,
    Reading::NoScorer,
];

#[test]
#[cfg_attr(not(oracle), ignore = "the Rust source is absent")]
fn wrong_readings_are_caught() {
    with_oracle!({
        let inputs = Inputs::new();
        for reading in READINGS {
            let against = match OF_ENDS.contains(&reading) {
                true => Against::LawsAlone,
                false => Against::Rust,
            };
            let double = Double(Wrong::Reads(reading));
            let caught = |seed: &u64| {
                let run = || fuzz(&double, &inputs, against, &mut Plain).call(*seed);
                catch_unwind(AssertUnwindSafe(run)).is_err()
            };
            let first = (0..20_000).find(caught);
            println!("{reading:?} is caught at {first:?}, {against:?}");
            assert!(first.is_some(), "{reading:?}");
        }
    });
}

/// A list of too many tokens is not made here.
const TOO_MANY: WrongTo = WrongTo::Ignores(1);

#[test]
#[cfg_attr(not(oracle), ignore = "the Rust source is absent")]
fn wrong_writers_are_caught() {
    with_oracle!({
        let inputs = Inputs::new();
        for wrong in wrong::every() {
            let caught = |seed: &u64| {
                let (double, mut plain) = (Double(Wrong::Nothing), Plain);
                let right = fuzz(&double, &inputs, Against::Rust, &mut plain);
                let writer = &WrongWriter(wrong);
                let mut fuzz = Fuzz { writer, ..right };
                let run = || fuzz.write(&mut Random::new(*seed));
                catch_unwind(AssertUnwindSafe(run)).is_err()
            };
            let first = (0..3000).find(caught);
            println!("{wrong:?} is caught at {first:?}");
            assert_eq!(first.is_none(), wrong == TOO_MANY, "{wrong:?}");
        }
    });
}
