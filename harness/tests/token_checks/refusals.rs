//! Refused tokens: each reason alone, and several numbers at once.
use crate::common::each;
use harness::random::Random;
use harness::tokens::compare::{all, call, needed};
use harness::tokens::damage::{AT_FIRST, AT_LAST, FIELDS, reasons, several};
use harness::tokens::example::example;
use harness::tokens::*;

/// Each reason for 15 alone, at the first and at the last token.
pub fn damages(writer: &dyn Writer, seed: u64) {
    let mut random = Random::new(seed);
    let sound = make::framed(&mut random);
    assert_eq!(all(writer, &sound, &mut random), 0);
    for (name, damage) in AT_FIRST.iter().chain(&AT_LAST) {
        let mut made = sound.clone();
        damage(&mut made);
        assert_eq!(reasons(made.given()), [*name], "alone");
        assert_eq!(all(writer, &made, &mut random), 15, "{name}");
        // outputs that would be long enough for the sound ones
        let lent = needed(&sound);
        assert_eq!(call(writer, &made, &lent, &mut random), 15, "{name}");
    }
}

/// Several of 1, 2, 15 and 16 at once: the lowest.
pub fn lowest(writer: &dyn Writer, seed: u64) {
    let mut random = Random::new(seed);
    let sound = make::framed(&mut random);
    for choice in 0..16 {
        let (made, lent, right) = several(&sound, choice, &mut random);
        assert_eq!(call(writer, &made, &lent, &mut random), right, "{choice}");
    }
}

/// Each way in which field records are wrong, with tokens that need none of them.
pub fn wrong_fields(writer: &dyn Writer) {
    let mut random = Random::new(1);
    for damage in FIELDS {
        let mut made = example();
        damage(&mut made.fields);
        assert_eq!(all(writer, &made, &mut random), 2);
        made.tokens.clear();
        made.leaf_fields.clear();
        assert_eq!(all(writer, &made, &mut random), 2);
    }
}

pub fn refusals(writer: &dyn Writer) {
    each(100, |seed| damages(writer, seed));
    each(300, |seed| lowest(writer, seed));
    wrong_fields(writer);
}
