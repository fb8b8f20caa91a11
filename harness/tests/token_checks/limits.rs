//! Both sides of the request's limits, and documents in several windows.
use super::{number, of_seed, written};
use crate::common::each;
use harness::random::Random;
use harness::tokens::compare::call;
use harness::tokens::example::{field, tokens};
use harness::tokens::*;

/// Windows that are counted one after the other, up to the most documents.
pub fn windows(writer: &dyn Writer) {
    each(8, |seed| of_seed(writer, seed, make::dense));
    each(3, |seed| of_seed(writer, seed, make::windows));
    let fields = [field(1, 0)];
    for (document, right) in [(make::MOST_DOCUMENTS - 1, 0), (make::MOST_DOCUMENTS, 15)] {
        let one = tokens(make::MOST_DOCUMENTS, &fields, &[0], &[[0, document, 0]]);
        assert_eq!(number(writer, &one), right);
    }
}

/// Both sides of the limits but for the number of tokens.
pub fn limits(writer: &dyn Writer) {
    let fields = [field(1, 1), field(0, 0)];
    for (leaves, last, right) in [
        (512, 511, 0),
        (512, 512, 15),
        (513, 511, 15),
        (513, 512, 15),
    ] {
        let made = tokens(2, &fields, &vec![0; leaves], &[[last, 1, 1]]);
        assert_eq!(number(writer, &made), right);
        let number = number(writer, &tokens(2, &fields, &vec![1; leaves], &[]));
        assert_eq!(number, if leaves > 512 { 15 } else { 0 });
    }
    for leaf in [0, 1] {
        for (position, right) in [(MOST_POSITION, 0), (MOST_POSITION + 1, 15)] {
            let list = [[leaf, 1, 3], [leaf, 1, position]];
            let made = tokens(2, &fields, &[0, 1], &list);
            assert_eq!(number(writer, &made), right);
        }
        // a position is in order too where it is not kept
        let list = [[leaf, 1, 3], [leaf, 1, 2]];
        assert_eq!(number(writer, &tokens(2, &fields, &[0, 1], &list)), 15);
    }
    for (number_of, right) in [(16, 0), (17, 2)] {
        let made = tokens(2, &vec![field(1, 1); number_of], &[15], &[[0, 1, 1]]);
        assert_eq!(number(writer, &made), right);
    }
    for (n, right) in [(make::MOST_DOCUMENTS, 0), (make::MOST_DOCUMENTS + 1, 1)] {
        let made = tokens(n, &[field(0, 1)], &[0], &[[0, 1, 1]]);
        assert_eq!(number(writer, &made), right);
    }
}

/// 16,777,216 tokens of one leaf in one document, and one more.
pub fn most_tokens(writer: &dyn Writer) {
    let mut random = Random::new(1);
    for positions in [1, 0] {
        let mut made = tokens(1, &[field(1, positions)], &[0], &[]);
        let list = (0..MOST_TOKENS as u32).flat_map(|at| [0, 0, at / 3]);
        made.tokens = list.collect();
        let lent = Lengths {
            norms: 1,
            postings: 3,
            positions: MOST_TOKENS * positions as usize,
            runs: 2,
            answer: 2,
        };
        let told = written(writer, &made, &lent).unwrap();
        assert_eq!(told.norms, [199]);
        assert_eq!(told.postings, [0, 16_777_216, 0]);
        assert_eq!(call(writer, &made, &lent, &mut random), 0);
        made.tokens.extend([0, 0, MOST_POSITION]);
        assert_eq!(call(writer, &made, &lent, &mut random), 15);
    }
}

/// As many in two leaves and documents: the last positions have the largest indexes.
pub fn last_positions(writer: &dyn Writer) {
    let last = [[0, 1, 3], [1, 0, 4], [1, 0, 4]];
    let mut made = tokens(2, &[field(1, 1)], &[0, 0], &[]);
    made.tokens = vec![0; WORDS * (MOST_TOKENS - last.len())];
    made.tokens.extend(last.concat());
    let lent = Lengths {
        norms: 2,
        postings: 9,
        positions: MOST_TOKENS,
        runs: 4,
        answer: 2,
    };
    let told = written(writer, &made, &lent).unwrap();
    assert_eq!(told.runs, [0, 2, 2, 1]);
    let postings = [0, 16_777_213, 0, 1, 1, 16_777_213, 0, 2, 16_777_214];
    assert_eq!(told.postings, postings);
    assert_eq!(told.positions[16_777_212..], [0, 3, 4, 4]);
    // 16,777,215 tokens in document 0
    assert_eq!(told.norms, [199, 1]);
}
