//! Tokens from a seed that are not refused.
use super::{MOST_LEAVES, MOST_POSITION, Token, Tokens};
use crate::random::Random;

/// Documents that are likely to be counted together.
pub const WINDOW: u32 = 4096;

pub const MOST_DOCUMENTS: u32 = 1_048_576;

/// Records of fields, each with any flags.
pub fn fields(random: &mut Random, number: u32) -> Vec<u32> {
    let mut fields = Vec::new();
    for _ in 0..number {
        let any = random.within(0x3f80_0000, 0x4b80_0000);
        let average = random.pick(&[0x3f80_0000, 0x4b80_0000, any]);
        fields.extend([average, random.below(2), random.below(2)]);
    }
    fields
}

/// So many leaves, each of any of the fields; none without a field.
fn leaf_fields(random: &mut Random, fields: u32, number: u32) -> Vec<u32> {
    let number = if fields == 0 { 0 } else { number };
    let few = random.once_in(2);
    let field = |_| match few {
        true => random.below(fields.min(2)),
        false => random.below(fields),
    };
    (0..number).map(field).collect()
}

/// The records in order, as words.
pub fn in_order(mut tokens: Vec<Token>) -> Vec<u32> {
    tokens.sort_unstable();
    tokens.concat()
}

/// A few documents, leaves and tokens, so that documents and positions repeat.
pub fn small(random: &mut Random) -> Tokens {
    let n = random.pick(&[0, 1, 2, 3, 3, 5, 8, 65]);
    let number = random.pick(&[0, 1, 2, 2, 3, 4]);
    let fields = fields(random, number);
    let leaves = random.below(7);
    let leaf_fields = leaf_fields(random, number, leaves);
    let many = random.pick(&[0, 1, 2, 5, 12, 12, 40, 40]);
    let mut tokens = Vec::new();
    let leaves = leaf_fields.len() as u32;
    for _ in 0..if n == 0 || leaves == 0 { 0 } else { many } {
        let position = match random.below(16) {
            0 => MOST_POSITION - random.below(2),
            _ => random.below(4),
        };
        tokens.push([random.below(leaves), random.below(n), position]);
    }
    Tokens {
        n,
        fields,
        tokens: in_order(tokens),
        leaf_fields,
    }
}

/// Some thousand tokens of up to 512 leaves, in up to 20,000 documents, which fall into several
/// windows; a few of them hold most tokens.
pub fn large(random: &mut Random) -> Tokens {
    let n = random.pick(&[1, 40, 4095, 4096, 4097, 12_288, 20_000]);
    let number = random.pick(&[1, 2, 3, 16]);
    let fields = fields(random, number);
    let leaves = random.pick(&[1, 2, 30, 511, MOST_LEAVES as u32]);
    let leaf_fields = leaf_fields(random, number, leaves);
    let favourites: Vec<_> = (0..6).map(|_| random.below(n)).collect();
    let used = random.within(1, leaves);
    let mut tokens = Vec::new();
    for _ in 0..random.within(1000, 5000) {
        let document = match random.once_in(2) {
            true => random.pick(&favourites),
            false => random.below(n),
        };
        let leaf = random.below(used).min(random.below(used));
        tokens.push([leaf, document, random.below(60)]);
    }
    Tokens {
        n,
        fields,
        tokens: in_order(tokens),
        leaf_fields,
    }
}

/// Each of the 512 leaves has a token or a few.
pub fn all_leaves(random: &mut Random) -> Tokens {
    let n = random.pick(&[1, 3, 40, 4097]);
    let number = random.pick(&[1, 2, 16]);
    let fields = fields(random, number);
    let leaf_fields = leaf_fields(random, number, MOST_LEAVES as u32);
    let mut tokens = Vec::new();
    for leaf in 0..MOST_LEAVES as u32 {
        for _ in 0..random.within(1, 4) {
            tokens.push([leaf, random.below(n), random.below(9)]);
        }
    }
    Tokens {
        n,
        fields,
        tokens: in_order(tokens),
        leaf_fields,
    }
}

/// The most documents, with tokens beside the ends of windows, in several leaves and fields.
pub fn windows(random: &mut Random) -> Tokens {
    let windows = MOST_DOCUMENTS / WINDOW;
    let taken = [0, 1, 2, 3, 100, 101, windows - 2, windows - 1];
    let mut tokens = Vec::new();
    for leaf in 0..6 {
        for window in taken {
            if random.once_in(3) {
                continue;
            }
            let first = window * WINDOW;
            let last = first + WINDOW - 1;
            for document in [first, first + 1, last - 1, last] {
                for _ in 0..random.below(30) {
                    tokens.push([leaf, document, random.below(9)]);
                }
            }
        }
    }
    let field = |norms, positions| [0x3f80_0000, norms, positions];
    Tokens {
        n: MOST_DOCUMENTS,
        fields: [field(1, 1), field(0, 1), field(1, 0)].concat(),
        tokens: in_order(tokens),
        leaf_fields: vec![0, 2, 0, 1, 2, 0],
    }
}

/// Documents up to the end of a window, or one less or more, each with tokens in most leaves.
pub fn dense(random: &mut Random) -> Tokens {
    let n = random.within(1, 2) * WINDOW + random.below(3) - 1;
    let number = random.within(1, 3);
    let fields = fields(random, number);
    let leaf_fields = leaf_fields(random, number, 4);
    let mut tokens = Vec::new();
    for leaf in 0..4 {
        for document in 0..n {
            for _ in 0..random.pick(&[0, 1, 1, 2, 9]) {
                tokens.push([leaf, document, random.below(9)]);
            }
        }
    }
    Tokens {
        n,
        fields,
        tokens: in_order(tokens),
        leaf_fields,
    }
}

/// The most documents, fields and leaves, with tokens anywhere.
pub fn widest(random: &mut Random) -> Tokens {
    let mut tokens = Vec::new();
    for _ in 0..20_000 {
        let [leaf, position] = [MOST_LEAVES as u32, 9].map(|end| random.below(end));
        tokens.push([leaf, random.below(MOST_DOCUMENTS), position]);
    }
    Tokens {
        n: MOST_DOCUMENTS,
        fields: [0x3f80_0000, 1, 1].repeat(16),
        tokens: in_order(tokens),
        leaf_fields: (0..MOST_LEAVES as u32).map(|leaf| leaf % 16).collect(),
    }
}

/// Tokens to which one reason for 15 can be brought alone at the first and at the last: the first
/// leaf and the last have one token each, in a document and at a position with room on both sides.
pub fn framed(random: &mut Random) -> Tokens {
    let mut made = small(random);
    made.n = made.n.max(3);
    let number = random.within(1, 3);
    made.fields = fields(random, number);
    made.leaf_fields = leaf_fields(random, number, 5);
    let inner = random.below(12);
    let mut tokens = vec![[0, 1, 5], [4, made.n - 2, 5]];
    for _ in 0..inner {
        let leaf = random.within(1, 3);
        tokens.push([leaf, random.below(made.n), random.below(9)]);
    }
    made.tokens = in_order(tokens);
    made
}

/// An index to search: leaves that share many documents, and positions close to each other.
pub fn searched(random: &mut Random) -> Tokens {
    let mut made = small(random);
    made.n = random.pick(&[1, 9, 20, 40, 63, 64, 65]);
    let number = random.within(1, 3);
    made.fields = fields(random, number);
    let leaves = random.within(4, 12);
    made.leaf_fields = leaf_fields(random, number, leaves);
    let mut tokens = Vec::new();
    for leaf in 0..leaves {
        let one_in = random.pick(&[1, 1, 2, 2, 3, 8]);
        for document in 0..made.n {
            let many = random.pick(&[1, 1, 2, 3, 30]);
            let there = random.once_in(one_in) && !random.once_in(9);
            for _ in 0..if there { many } else { 0 } {
                tokens.push([leaf, document, random.below(5)]);
            }
        }
    }
    made.tokens = in_order(tokens);
    made
}
