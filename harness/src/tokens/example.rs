//! Short lists of tokens by hand: the worked example of request 2026-02 and what stands beside it.
use super::{Token, Tokens, WORDS};

/// A field of average 1.
pub const fn field(norms: u32, positions: u32) -> [u32; WORDS] {
    [0x3f80_0000, norms, positions]
}

pub fn tokens(n: u32, fields: &[[u32; WORDS]], leaf_fields: &[u32], tokens: &[Token]) -> Tokens {
    Tokens {
        n,
        fields: fields.concat(),
        tokens: tokens.concat(),
        leaf_fields: leaf_fields.to_vec(),
    }
}

pub const EXAMPLE: [Token; 7] = [
    [0, 0, 0],
    [0, 0, 5],
    [0, 0, 5],
    [0, 2, 1],
    [1, 2, 7],
    [1, 2, 7],
    [3, 0, 6],
];

pub fn example() -> Tokens {
    tokens(3, &[field(1, 1), field(1, 0)], &[0, 1, 0, 0], &EXAMPLE)
}

/// A token after the example's last, and the number that it brings.
pub const ONE_MORE: [(Token, u32); 8] = [
    ([2, 0, 6], 15),
    ([3, 0, 5], 15),
    ([4, 0, 6], 15),
    ([3, 3, 6], 15),
    ([3, 0, 2_147_483_648], 15),
    ([3, 0, 6], 0),
    ([3, 0, 2_147_483_647], 0),
    ([3, 2, 0], 0),
];

/// The example with one more token.
pub fn with_one_more(token: Token) -> Tokens {
    let mut more = example();
    more.tokens.extend(token);
    more
}

/// The example with a leaf whose field is absent: 15.
pub fn absent_field() -> Tokens {
    let mut absent = example();
    absent.leaf_fields[1] = 2;
    absent
}

/// A leaf or two of a field without positions, with so many tokens in one document.
pub fn counted(count: u32) -> Tokens {
    let (first, second) = (count / 3, count - count / 3);
    let mut list = vec![[0, 1, 4]; first as usize];
    list.extend(vec![[1, 1, 4]; second as usize]);
    tokens(3, &[field(0, 1), field(1, 0)], &[1, 1], &list)
}

/// Counts and their norm bytes.
pub const CODES: [(u32, u8); 7] = [
    (0, 0),
    (23, 23),
    (24, 24),
    (40, 40),
    (41, 40),
    (42, 41),
    (16_777_216, 199),
];
