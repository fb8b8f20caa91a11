//! The reasons for 15, one by one as the text names them; tokens that are refused for one reason
//! alone; what brings 1 and 2; and calls for which several numbers hold.
use super::compare::needed;
use super::{Given, Lengths, MOST_LEAVES, MOST_POSITION, MOST_TOKENS, Token, Tokens, WORDS};
use crate::random::Random;

/// A reason and whether it holds, where neither 1 nor 2 does.
pub type Reason = (&'static str, fn(Given) -> bool);

pub const REASONS: [Reason; 8] = [
    ("records not whole", |given| given.tokens.len() % WORDS != 0),
    ("too many tokens", |given| {
        given.records().len() > MOST_TOKENS
    }),
    ("too many leaves", |given| {
        given.leaf_fields.len() > MOST_LEAVES
    }),
    ("out of order", |given| !given.records().is_sorted()),
    ("leaf absent", |given| {
        let leaves = given.leaf_fields.len() as u64;
        any(given, |[leaf, ..]| u64::from(leaf) >= leaves)
    }),
    ("document absent", |given| {
        any(given, |[_, document, _]| document >= given.n)
    }),
    ("field absent", |given| {
        let fields = (given.fields.len() / WORDS) as u64;
        let mut of_leaves = given.leaf_fields.iter();
        of_leaves.any(|field| u64::from(*field) >= fields)
    }),
    ("position too large", |given| {
        any(given, |[.., position]| position > MOST_POSITION)
    }),
];

fn any(given: Given, wrong: impl Fn(Token) -> bool) -> bool {
    given.records().iter().any(|token| wrong(*token))
}

/// The reasons that hold.
pub fn reasons(given: Given) -> Vec<&'static str> {
    let holding = REASONS.iter().filter(|(_, holds)| holds(given));
    holding.map(|(name, _)| *name).collect()
}

/// What brings a reason to tokens that are framed.
pub type Damage = (&'static str, fn(&mut Tokens));

/// At the first token or leaf.
pub const AT_FIRST: [Damage; 10] = [
    ("out of order", |made| swap(&mut made.tokens, 0)),
    ("out of order", |made| {
        let [leaf, document, position] = first(made);
        before(made, [leaf, document + 1, position]);
    }),
    ("out of order", |made| {
        let [leaf, document, position] = first(made);
        before(made, [leaf, document, position + 1]);
    }),
    ("leaf absent", |made| made.leaf_fields.clear()),
    ("document absent", |made| made.tokens[1] = made.n),
    ("document absent", |made| made.tokens[1] = u32::MAX),
    ("position too large", |made| {
        made.tokens[2] = MOST_POSITION + 1;
    }),
    ("position too large", |made| made.tokens[2] = u32::MAX),
    ("field absent", |made| {
        made.leaf_fields[0] = (made.fields.len() / WORDS) as u32;
    }),
    ("field absent", |made| made.leaf_fields[0] = u32::MAX),
];

/// At the last token or leaf, or at the end.
pub const AT_LAST: [Damage; 16] = [
    ("records not whole", |made| made.tokens.push(4)),
    ("records not whole", |made| made.tokens.extend([4, 1])),
    ("records not whole", |made| _ = made.tokens.pop()),
    ("too many leaves", |made| {
        made.leaf_fields.resize(MOST_LEAVES + 1, 0);
    }),
    ("out of order", |made| {
        let at = made.tokens.len() - 2 * WORDS;
        swap(&mut made.tokens, at);
    }),
    ("out of order", |made| {
        let [leaf, document, position] = last(made);
        made.tokens.extend([leaf, document - 1, position]);
    }),
    ("out of order", |made| {
        let [leaf, document, position] = last(made);
        made.tokens.extend([leaf, document, position - 1]);
    }),
    ("leaf absent", |made| *of_last(made, 0) = 5),
    ("leaf absent", |made| *of_last(made, 0) = u32::MAX),
    ("leaf absent", |made| _ = made.leaf_fields.pop()),
    ("document absent", |made| *of_last(made, 1) = made.n),
    ("document absent", |made| *of_last(made, 1) = u32::MAX),
    ("position too large", |made| {
        *of_last(made, 2) = MOST_POSITION + 1;
    }),
    ("position too large", |made| *of_last(made, 2) = u32::MAX),
    ("field absent", |made| {
        *made.leaf_fields.last_mut().unwrap() = (made.fields.len() / WORDS) as u32;
    }),
    ("field absent", |made| {
        // a leaf without tokens
        made.leaf_fields.push(u32::MAX);
    }),
];

/// The token at `at` and the next change places.
fn swap(tokens: &mut [u32], at: usize) {
    (at..at + WORDS).for_each(|one| tokens.swap(one, one + WORDS));
}

fn first(made: &Tokens) -> Token {
    *made.given().records().first().unwrap()
}

fn last(made: &Tokens) -> Token {
    *made.given().records().last().unwrap()
}

fn before(made: &mut Tokens, token: Token) {
    made.tokens.splice(0..0, token);
}

fn of_last(made: &mut Tokens, word: usize) -> &mut u32 {
    let at = made.tokens.len() - WORDS + word;
    &mut made.tokens[at]
}

/// Too many documents: 1.
pub fn documents(made: &mut Tokens, random: &mut Random) {
    made.n = random.pick(&[1_048_577, 0x8000_0000, u32::MAX]);
}

/// Field records that bring 2; the averages are looked at though they are not used.
pub const FIELDS: [fn(&mut Vec<u32>); 10] = [
    |fields| fields.push(0x3f80_0000),
    |fields| fields.extend([0x3f80_0000, 0]),
    |fields| _ = fields.pop(),
    |fields| fields.resize(WORDS * 17, 0),
    |fields| {
        while fields.len() < WORDS * 17 {
            fields.extend([0x3f80_0000, 0, 0]);
        }
    },
    |fields| fields[0] = 0x3f7f_ffff,
    |fields| fields[0] = 0x4b80_0001,
    |fields| *fields.iter_mut().nth_back(2).unwrap() = 0x7fc0_0000,
    |fields| *fields.iter_mut().nth_back(1).unwrap() = 2,
    |fields| *fields.last_mut().unwrap() = u32::MAX,
];

/// A call with framed tokens for which those of 16, 15, 2 and 1 hold that the bits 8, 4, 2 and 1 of
/// `choice` name, and the lowest of them.
pub fn several(sound: &Tokens, choice: u32, random: &mut Random) -> (Tokens, Lengths, u32) {
    let mut made = sound.clone();
    let mut lent = needed(&made);
    let mut right = 0;
    if choice & 8 != 0 {
        one_short(&mut lent, random);
        right = 16;
    }
    if choice & 4 != 0 {
        let damages = [&AT_FIRST[..], &AT_LAST].concat();
        let (_, damage) = random.pick(&damages);
        damage(&mut made);
        right = 15;
    }
    if choice & 2 != 0 {
        random.pick(&FIELDS)(&mut made.fields);
        right = 2;
    }
    if choice & 1 != 0 {
        documents(&mut made, random);
        right = 1;
    }
    (made, lent, right)
}

/// One of the outputs is too short.
fn one_short(lent: &mut Lengths, random: &mut Random) {
    let needed = lent.each().into_iter().filter(|length| **length > 0);
    let mut needed: Vec<_> = needed.collect();
    let which = random.below(needed.len() as u32) as usize;
    *needed[which] = random.below(*needed[which] as u32) as usize;
}
