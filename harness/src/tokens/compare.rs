//! Calls of a writer, each held to the judge: the number, every element of every output, and that
//! the tokens are read back from an index that passes the checks.
use super::judge::{self, read_back, told};
use super::outputs::Outputs;
use super::{Lengths, Tokens, Writer, Written};
use crate::random::Random;
use crate::refusal::order;

/// A call with outputs so long; gives its number.
pub fn call(writer: &dyn Writer, tokens: &Tokens, lent: &Lengths, random: &mut Random) -> u32 {
    let mut outputs = Outputs::new(random, lent);
    let number = writer.write(outputs.write(tokens.given()));
    after(&outputs, number, tokens, lent);
    number
}

/// After a call that gave `number`.
pub fn after(outputs: &Outputs, number: u32, tokens: &Tokens, lent: &Lengths) {
    match judge::write(tokens.given(), lent) {
        Err(refused) => {
            assert_eq!(number, refused, "the refusal");
            outputs.are_kept();
        }
        Ok(right) => {
            assert_eq!(number, 0, "the number of an accepted call");
            outputs.hold(&right);
            let needed = needed(tokens);
            are_read_back(tokens, outputs.told(&needed));
        }
    }
}

/// The index passes every check of an index, 3 and 5 among them, and has the tokens.
fn are_read_back(tokens: &Tokens, written: Written) {
    let given = tokens.given();
    assert!(read_back(given, &written).eq(told(given)), "read back");
    assert_eq!(order(&tokens.plain_case(written)), 0, "the checks");
}

/// The outputs that tokens need; where they are refused, the answer alone.
pub fn needed(tokens: &Tokens) -> Lengths {
    match judge::number(tokens.given(), &Lengths::LONGEST) {
        0 => judge::needed(tokens.given()).expect("tokens that are not refused"),
        _ => Lengths {
            answer: super::ANSWERED,
            ..Lengths::default()
        },
    }
}

/// Outputs that are long enough, often exactly.
pub fn enough(random: &mut Random, needed: &Lengths) -> Lengths {
    let mut lent = *needed;
    if random.once_in(2) {
        return lent;
    }
    for length in lent.each() {
        *length += random.pick(&[0, 0, 1, 2, 40]);
    }
    lent
}

/// A call with outputs that are exactly long enough, one with longer ones, one with one of them too
/// short; gives the number of the first.
pub fn all(writer: &dyn Writer, tokens: &Tokens, random: &mut Random) -> u32 {
    let before = tokens.clone();
    let needed = needed(tokens);
    let number = call(writer, tokens, &needed, random);
    let longer = enough(random, &needed);
    assert_eq!(call(writer, tokens, &longer, random), number);
    let which = random.below(5) as usize;
    let mut short = longer;
    let length = &mut *short.each()[which];
    *length = needed.clone().each()[which].saturating_sub(1);
    call(writer, tokens, &short, random);
    assert!(*tokens == before, "an input was written");
    number
}

/// Each output one element too short and without any, alone and beside others: refused 16.
pub fn too_short(writer: &dyn Writer, tokens: &Tokens, random: &mut Random) {
    let needed = needed(tokens);
    for which in 0..5 {
        let own = *needed.clone().each()[which];
        for length in [0, own.saturating_sub(1)] {
            let mut lent = enough(random, &needed);
            *lent.each()[which] = length;
            let number = if length < own { 16 } else { 0 };
            assert_eq!(call(writer, tokens, &lent, random), number);
        }
        let mut others = needed;
        for length in others.each() {
            *length = length.saturating_sub(1);
        }
        *others.each()[which] = own;
        call(writer, tokens, &others, random);
    }
}

/// Each output exactly long enough and longer, alone and together: accepted.
pub fn long_enough(writer: &dyn Writer, tokens: &Tokens, random: &mut Random) {
    let needed = needed(tokens);
    let mut together = needed;
    for which in 0..5 {
        let mut lent = needed;
        *lent.each()[which] += random.pick(&[1, 2, 3, 100]);
        assert_eq!(call(writer, tokens, &lent, random), 0);
        *together.each()[which] += random.pick(&[1, 2, 3, 100]);
    }
    assert_eq!(call(writer, tokens, &needed, random), 0);
    assert_eq!(call(writer, tokens, &together, random), 0);
}
