//! Every short list of tokens.
use crate::common::each_of;
use harness::tokens::compare::{call, needed};
use harness::tokens::example::{field, tokens};
use harness::tokens::*;

/// All lists of up to so many tokens over two leaves, documents and positions, in any order.
pub fn lists(most: u32) -> Vec<Vec<u32>> {
    let token = |bits: u32| [bits & 1, bits >> 1 & 1, bits >> 2 & 1];
    let of = |number: u32| {
        let all = 0..8u32.pow(number);
        all.map(move |choice| {
            let tokens = (0..number).flat_map(|at| token(choice >> (3 * at)));
            tokens.collect()
        })
    };
    (0..=most).flat_map(of).collect()
}

/// Two fields with every flag, and two leaves of each.
pub fn frames() -> Vec<Tokens> {
    let mut all = Vec::new();
    for choice in 0..64 {
        let bit = |at: u32| choice >> at & 1;
        let fields = [field(bit(0), bit(1)), field(bit(2), bit(3))];
        all.push(tokens(2, &fields, &[bit(4), bit(5)], &[]));
    }
    all
}

/// Every list with every frame; `accepted` of them are in order.
pub fn every_list(writer: &dyn Writer, most: u32, accepted: usize) {
    let lists = lists(most);
    each_of(&frames(), |frame, random| {
        let mut made = frame.clone();
        let mut found = 0;
        for list in &lists {
            made.tokens.clone_from(list);
            found += usize::from(call(writer, &made, &needed(&made), random) == 0);
        }
        assert_eq!(found, accepted);
    });
}
