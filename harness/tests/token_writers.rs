//! The judge of request 2026-02 beside a second writer and the reasons one by one; and the wrong
//! writers of an index, each of which the checks catch.
mod common;
mod token_checks;

use common::each;
use harness::fuzz::input::change_tokens;
use harness::random::Random;
use harness::tokens::damage::reasons;
use harness::tokens::example::CODES;
use harness::tokens::judge::{self, Judge};
use harness::tokens::norm_byte::{from_text, norm_byte};
use harness::tokens::wrong::{self, Wrong, WrongWriter};
use harness::tokens::*;
use std::panic::{AssertUnwindSafe, catch_unwind};
use std::sync::atomic::{AtomicUsize, Ordering};
use token_checks::CHECKS;
use token_checks::limits::most_tokens;

#[test]
fn codes_of_counts() {
    for (count, byte) in CODES {
        assert_eq!(
            (norm_byte(count), from_text(count)),
            (byte, byte),
            "{count}"
        );
    }
    let mut counts = 0..=MOST_TOKENS as u32;
    assert!(counts.all(|count| norm_byte(count) == from_text(count)));
}

/// Words changed anywhere: the reasons one by one say what the judge says.
#[test]
fn the_judge_knows_the_reasons() {
    let refused = AtomicUsize::new(0);
    each(5000, |seed| {
        let mut random = Random::new(seed);
        let mut made = make::small(&mut random);
        for _ in 0..random.within(1, 3) {
            change_tokens(&mut random, &mut made);
        }
        let number = judge::number(made.given(), &Lengths::LONGEST);
        let because = reasons(made.given());
        if number != 1 && number != 2 {
            assert_eq!(number == 15, !because.is_empty(), "{because:?}");
            assert!(number == 15 || number == 0);
            refused.fetch_add(usize::from(number == 15), Ordering::Relaxed);
        }
    });
    assert!(refused.into_inner() > 1000);
}

/// The judge, and the writer that takes token by token, pass.
#[test]
fn right_writers_pass() {
    for writer in [&Judge as &dyn Writer, &WrongWriter(Wrong::Nothing)] {
        CHECKS.iter().for_each(|(_, check)| check(writer));
    }
}

/// The first check that a writer does not pass.
fn caught(writer: &dyn Writer) -> Option<&'static str> {
    let fails = |check: fn(&dyn Writer)| {
        let run = || check(writer);
        catch_unwind(AssertUnwindSafe(run)).is_err()
    };
    let mut failed = CHECKS.iter().filter(|(_, check)| fails(*check));
    failed.next().map(|(name, _)| *name)
}

/// Only the number of tokens tells.
const TOO_MANY: Wrong = Wrong::Ignores(1);

#[test]
fn wrong_writers_are_caught() {
    for wrong in wrong::every() {
        let by = caught(&WrongWriter(wrong));
        println!("{wrong:?} is caught by {by:?}");
        assert_eq!(by.is_none(), wrong == TOO_MANY, "{wrong:?}");
    }
    let run = || most_tokens(&WrongWriter(TOO_MANY));
    assert!(catch_unwind(AssertUnwindSafe(run)).is_err());
}
