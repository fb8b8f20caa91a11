//! Calls of a token writer that are kept: some made by hand, generated ones, and damaged copies of
//! generated ones. Damaged tokens come with outputs in which the sound ones would have room, so that
//! a write before the refusal would show.
use super::compare::{enough, needed};
use super::damage::{AT_FIRST, AT_LAST, FIELDS, several};
use super::example::*;
use super::{ANSWERED, Lengths, RUN_WORDS, Tokens, make};
use crate::random::Random;

/// What is lent: the tokens, and outputs so long.
pub struct Call {
    pub tokens: Tokens,
    pub lent: Lengths,
}

/// Calls that each show one thing.
pub fn by_hand() -> Vec<Call> {
    let mut calls = Vec::new();
    lengths(&mut calls);
    beside_the_example(&mut calls);
    without_tokens(&mut calls);
    borders(&mut calls);
    counts(&mut calls);
    limits(&mut calls);
    wrong_fields(&mut calls);
    calls
}

/// Outputs in which the example has room with another token, and more.
fn with_room() -> Lengths {
    Lengths {
        norms: 8,
        postings: 17,
        positions: 9,
        runs: 9,
        answer: ANSWERED,
    }
}

/// A call with outputs exactly long enough.
fn exact(calls: &mut Vec<Call>, tokens: Tokens) {
    let lent = needed(&tokens);
    calls.push(Call { tokens, lent });
}

/// The example with outputs exactly long enough; each output one longer, one shorter, and none.
fn lengths(calls: &mut Vec<Call>) {
    let right = needed(&example());
    let mut call = |lent| {
        calls.push(Call {
            tokens: example(),
            lent,
        })
    };
    call(right);
    call(with_room());
    for which in 0..4 {
        let changes: [fn(&mut usize); 3] = [
            |length| *length += 1,
            |length| *length -= 1,
            |length| *length = 0,
        ];
        for change in changes {
            let mut lent = right;
            change(&mut *lent.each()[which]);
            call(lent);
        }
    }
}

/// The example with one more token, and with a leaf whose field is absent.
fn beside_the_example(calls: &mut Vec<Call>) {
    let more = ONE_MORE.map(|(token, _)| with_one_more(token));
    for tokens in more.into_iter().chain([absent_field()]) {
        let lent = with_room();
        calls.push(Call { tokens, lent });
    }
}

/// No tokens, with leaves and without; no documents, no fields.
fn without_tokens(calls: &mut Vec<Call>) {
    let both = [field(1, 1), field(1, 0)];
    exact(calls, tokens(3, &both, &[], &[]));
    exact(calls, tokens(3, &both, &[1, 0], &[]));
    exact(calls, tokens(0, &both, &[], &[]));
    exact(calls, tokens(0, &both, &[0, 1], &[]));
    exact(calls, tokens(5, &[], &[], &[]));
    exact(calls, tokens(0, &[], &[], &[]));
    for tokens in [
        tokens(0, &both, &[0], &[[0, 0, 0]]),
        tokens(1, &both, &[], &[[0, 0, 0]]),
        tokens(1, &[], &[0], &[[0, 0, 0]]),
    ] {
        let lent = with_room();
        calls.push(Call { tokens, lent });
    }
}

/// Where one leaf ends and another begins: leaves without tokens before, between and after, and
/// leaves whose tokens go on in the same document, at the same position or before it.
fn borders(calls: &mut Vec<Call>) {
    let lists: [&[[u32; 3]]; 6] = [
        &[[2, 1, 3], [2, 2, 0], [5, 0, 4]],
        &[[0, 1, 3], [7, 1, 3]],
        &[[0, 1, 3], [1, 1, 3], [2, 1, 3], [3, 1, 3]],
        &[[0, 2, 9], [0, 2, 9], [1, 2, 0], [2, 2, 9], [3, 2, 0]],
        &[[3, 2, 9], [4, 0, 0], [4, 2, 9], [5, 0, 0]],
        &[[6, 1, 5], [7, 1, 5], [7, 1, 5]],
    ];
    let fields = [field(1, 1), field(1, 0), field(0, 1), field(0, 0)];
    let orders: [[u32; 8]; 2] = [[0, 0, 1, 1, 2, 2, 3, 3], [0, 1, 2, 3, 0, 2, 1, 0]];
    for list in lists {
        for leaf_fields in &orders {
            exact(calls, tokens(3, &fields, leaf_fields, list));
        }
    }
}

/// Counts around the steps of the norm bytes, in two leaves and in one with positions.
fn counts(calls: &mut Vec<Call>) {
    for (count, _) in CODES.into_iter().take(6) {
        exact(calls, counted(count));
        let list = vec![[0, 1, 4]; count as usize];
        exact(calls, tokens(2, &[field(1, 1)], &[0], &list));
    }
}

/// Both sides of the limits of documents, leaves and positions.
fn limits(calls: &mut Vec<Call>) {
    let positions = [field(0, 1)];
    for n in [make::MOST_DOCUMENTS, make::MOST_DOCUMENTS + 1] {
        for document in [n - 1, n] {
            let tokens = tokens(n, &positions, &[0], &[[0, document, 1]]);
            let lent = with_room();
            calls.push(Call { tokens, lent });
        }
    }
    for leaves in [512, 513] {
        let tokens = tokens(2, &positions, &vec![0; leaves], &[[511, 1, 1]]);
        let lent = Lengths {
            runs: RUN_WORDS * 512,
            ..with_room()
        };
        calls.push(Call { tokens, lent });
    }
}

/// Each way in which field records are wrong.
fn wrong_fields(calls: &mut Vec<Call>) {
    for damage in FIELDS {
        let mut tokens = example();
        damage(&mut tokens.fields);
        let lent = with_room();
        calls.push(Call { tokens, lent });
    }
}

/// The generated call of a seed.
pub fn generated(seed: u64) -> Call {
    let mut random = Random::new(seed);
    let tokens = make::small(&mut random);
    let lent = enough(&mut random, &needed(&tokens));
    Call { tokens, lent }
}

/// Each reason for 15 alone, then so many calls for which several of 1, 2, 15 and 16 hold.
pub fn damaged(number: u32) -> Vec<Call> {
    let mut random = Random::new(2);
    let mut calls = Vec::new();
    for (_, damage) in AT_FIRST.iter().chain(&AT_LAST) {
        let mut tokens = make::framed(&mut random);
        let lent = needed(&tokens);
        damage(&mut tokens);
        calls.push(Call { tokens, lent });
    }
    for choice in 0..number {
        let sound = make::framed(&mut random);
        let (tokens, lent, _) = several(&sound, choice % 16, &mut random);
        calls.push(Call { tokens, lent });
    }
    calls
}
