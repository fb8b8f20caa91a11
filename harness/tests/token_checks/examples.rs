//! The worked example, lists without tokens, and counts with the bytes that code them: the numbers
//! are written down, none is worked out by the judge.
use super::{number, written};
use harness::random::Random;
use harness::tokens::compare::{call, needed};
use harness::tokens::example::*;
use harness::tokens::*;

pub fn worked_example(writer: &dyn Writer) {
    let mut lent = Lengths {
        norms: 6,
        postings: 12,
        positions: 5,
        runs: 8,
        answer: 2,
    };
    let right = Written {
        norms: vec![4, 0, 1, 0, 0, 2],
        postings: vec![0, 3, 0, 2, 1, 3, 2, 2, 0, 0, 1, 4],
        positions: vec![0, 5, 5, 1, 6],
        runs: vec![0, 2, 2, 1, 3, 0, 3, 1],
    };
    assert_eq!(right.answer(), [4, 5]);
    assert_eq!(written(writer, &example(), &lent), Ok(right));
    assert_eq!(number(writer, &example()), 0);
    lent.postings = 11;
    assert_eq!(written(writer, &example(), &lent), Err(16));
    assert_eq!(call(writer, &example(), &lent, &mut Random::new(1)), 16);
}

/// The example with one more token, or with another field of a leaf.
pub fn beside_the_example(writer: &dyn Writer) {
    for (token, right) in ONE_MORE {
        let more = with_one_more(token);
        assert_eq!(number(writer, &more), right, "{token:?}");
        assert_eq!(with_room(writer, &more), right, "{token:?}");
    }
    let absent = absent_field();
    assert_eq!(number(writer, &absent), 15);
    assert_eq!(with_room(writer, &absent), 15);
}

/// A call with outputs that are longer than they must be.
fn with_room(writer: &dyn Writer, tokens: &Tokens) -> u32 {
    let lent = Lengths {
        norms: 20,
        postings: 40,
        positions: 20,
        runs: 20,
        answer: 5,
    };
    call(writer, tokens, &lent, &mut Random::new(2))
}

/// No tokens and no leaves, or leaves alone.
pub fn nothing(writer: &dyn Writer) {
    let both = [field(1, 1), field(1, 0)];
    let none = tokens(3, &both, &[], &[]);
    let right = Written {
        norms: vec![0; 6],
        ..Written::default()
    };
    assert_eq!(right.answer(), [0, 0]);
    let lent = needed(&none);
    assert_eq!(written(writer, &none, &lent), Ok(right.clone()));
    assert_eq!(number(writer, &none), 0);
    let leaves = tokens(3, &both, &[1, 0], &[]);
    let right = Written {
        runs: vec![0; 4],
        ..right
    };
    assert_eq!(written(writer, &leaves, &needed(&leaves)), Ok(right));
    assert_eq!(number(writer, &leaves), 0);
    for (n, fields) in [(0, &both[..]), (0, &[]), (5, &[])] {
        assert_eq!(number(writer, &tokens(n, fields, &[], &[])), 0);
    }
    assert_eq!(number(writer, &tokens(0, &both, &[0, 1], &[])), 0);
    assert_eq!(number(writer, &tokens(0, &both, &[0], &[[0, 0, 0]])), 15);
    assert_eq!(number(writer, &tokens(1, &both, &[], &[[0, 0, 0]])), 15);
}

pub fn examples(writer: &dyn Writer) {
    worked_example(writer);
    beside_the_example(writer);
    nothing(writer);
}

/// Each count's byte.
pub fn counts(writer: &dyn Writer) {
    for (count, byte) in CODES.into_iter().take(6) {
        let made = counted(count);
        let told = written(writer, &made, &needed(&made)).unwrap();
        assert_eq!(told.norms, [0, byte, 0]);
        assert_eq!(number(writer, &made), 0);
    }
}
