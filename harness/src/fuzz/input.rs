//! What is handed over: sound cases with words changed, and words that mean nothing.
use super::Lists;
use crate::boundary;
use crate::case::Case;
use crate::damage::damaged;
use crate::generate;
use crate::query::RECORD;
use crate::random::Random;
use crate::refusal::calls::Lengths;
use crate::tokens::{self, Tokens, compare, make};

/// Elements that a slice may have.
pub const ROOM: usize = 200_000;

/// Cases from both sides of the boundaries, made once.
pub struct Inputs {
    boundaries: Vec<Case>,
}

impl Default for Inputs {
    fn default() -> Inputs {
        Inputs::new()
    }
}

impl Inputs {
    pub fn new() -> Inputs {
        let all = boundary::all().into_iter().map(|(_, case)| case);
        let boundaries = all.filter(fits).collect();
        Inputs { boundaries }
    }

    pub fn case(&self, random: &mut Random) -> Case {
        let mut case = match random.below(16) {
            0 => self.boundaries[random.below(self.boundaries.len() as u32) as usize].clone(),
            1 => nonsense(random),
            2 => Case {
                query: records(random),
                ..generate::case(random.word())
            },
            3 => generate::with_failed_end(random.word()),
            _ => generate::case(random.word()),
        };
        for _ in 0..random.pick(&[0, 0, 0, 0, 0, 0, 0, 1, 1, 2, 4, 10]) {
            case = changed(random, case);
        }
        case
    }
}

fn fits(case: &Case) -> bool {
    let words = [&case.fields, &case.leaves, &case.postings, &case.positions];
    let more = [&case.columns, &case.values, &case.query];
    let mut lists = words.iter().chain(&more);
    lists.all(|list| list.len() < ROOM) && case.norms.len() < ROOM && case.live.len() < ROOM
}

/// A word: mostly small, else at a limit or anything.
fn word(random: &mut Random) -> u32 {
    match random.below(8) {
        0 => random.word() as u32,
        1 => random.pick(&[0x3f80_0000, 0x4280_0000, 0x4780_0000, 0x4b80_0000]),
        2 => random.pick(&[
            2_147_483_647,
            0x8000_0000,
            u32::MAX,
            16_777_216,
            0x5555_5556,
        ]),
        3 => random.below(300),
        _ => random.below(6),
    }
}

fn words(random: &mut Random, most: u32) -> Vec<u32> {
    (0..random.below(most + 1)).map(|_| word(random)).collect()
}

/// Words without any sense, of lengths that mostly have some.
fn nonsense(random: &mut Random) -> Case {
    let n = random.pick(&[0, 1, 2, 3, 64, 1_048_576, 1_048_577, u32::MAX]);
    let average = random.within(0x3f80_0000, 0x4b80_0000);
    let field = [average, 0, random.below(2)];
    let fields = match random.below(3) {
        0 => words(random, 12),
        _ => field.repeat(random.below(4) as usize),
    };
    Case {
        n,
        k: word(random),
        t: word(random),
        fields,
        leaves: words(random, 16),
        postings: words(random, 30),
        positions: words(random, 20),
        norms: vec![word(random) as u8; random.pick(&[0, 0, 1, 3, 64])],
        live: vec![random.word(); random.pick(&[0, 0, 1, 2])],
        columns: words(random, 3),
        values: words(random, 20),
        query: records(random),
    }
}

/// Records of any kinds and child counts, seldom a whole tree.
fn records(random: &mut Random) -> Vec<u32> {
    let mut all = Vec::new();
    for _ in 0..random.pick(&[0, 1, 1, 2, 3, 5, 9, 256, 257]) {
        let children = random.pick(&[0, 0, 0, 0, 1, 1, 2, 3]);
        all.extend([random.below(11), random.below(6), children]);
        all.extend((3..RECORD).map(|_| word(random)));
    }
    if random.once_in(8) {
        all.truncate(all.len().saturating_sub(random.below(9) as usize));
    }
    all
}

/// The case with something changed; some changes leave it sound.
fn changed(random: &mut Random, case: Case) -> Case {
    if random.once_in(2) {
        return damaged(random, &case);
    }
    let mut case = case;
    let list = match random.below(7) {
        0 => &mut case.fields,
        1 => &mut case.leaves,
        2 => &mut case.postings,
        3 => &mut case.positions,
        4 => &mut case.columns,
        5 => &mut case.values,
        _ => &mut case.query,
    };
    change(random, list);
    case
}

/// A bit turned, two words changed over, a part repeated, cut off or replaced.
fn change(random: &mut Random, list: &mut Vec<u32>) {
    let length = list.len() as u32;
    if length == 0 {
        return list.extend(words(random, 9));
    }
    let [one, other] = [random.below(length) as usize, random.below(length) as usize];
    let (from, to) = (one.min(other), one.max(other));
    match random.below(6) {
        0 | 1 => list[one] ^= 1 << random.below(32),
        2 => list.swap(one, other),
        3 if list.len() < ROOM / 2 => list.extend_from_within(from..to),
        4 => list.truncate(one),
        _ => list[one] = word(random),
    }
}

/// Buffers that are mostly exactly as long as they must be; often one alone is not.
pub fn lengths(random: &mut Random, k: u32, needed: &Lengths) -> Lengths {
    let any = random.below(40) as usize;
    let m = random.pick(&[0, 1, 3, 3, 3, 3, 3, any]);
    let mut lent = Lengths {
        hits: k.min(1024) as usize,
        documents: m,
        scores: m,
        answer: 3,
        ..*needed
    };
    let wrong = random.pick(&[0, 0, 0, 0, 0, 0, 0, 1, 1, 3]);
    for _ in 0..wrong {
        let length = match random.below(8) {
            0 => &mut lent.states,
            1 => &mut lent.starts,
            2 => &mut lent.other_starts,
            3 => &mut lent.ranges,
            4 => &mut lent.hits,
            5 => &mut lent.documents,
            6 => &mut lent.scores,
            _ => &mut lent.answer,
        };
        *length = wrong_length(random, *length);
    }
    within_room(lent)
}

/// Too short, mostly by one; or one too long.
fn wrong_length(random: &mut Random, length: usize) -> usize {
    match random.below(8) {
        0 => random.below(length.min(ROOM) as u32 + 1) as usize,
        1 => 0,
        2 | 3 => length + 1,
        _ => length.saturating_sub(1),
    }
}

fn within_room(lent: Lengths) -> Lengths {
    Lengths {
        states: lent.states.min(ROOM),
        starts: lent.starts.min(ROOM),
        other_starts: lent.other_starts.min(ROOM),
        ranges: lent.ranges.min(ROOM),
        ..lent
    }
}

/// Lists for Pick: ascending documents with scores, often spoiled.
pub fn lists(random: &mut Random) -> Lists {
    let length = random.pick(&[0, 1, 2, 5, 30, 300, 3000]);
    let mut documents: Vec<_> = (0..length).map(|_| random.below(2_147_483_647)).collect();
    documents.sort_unstable();
    documents.dedup();
    let any = random.within(0, 0x7f80_0000);
    let score = |_: &u32| random.pick(&[0, 1, any, 0x3f80_0000, 0x7f80_0000]);
    let mut scores: Vec<_> = documents.iter().map(score).collect();
    if random.once_in(2) {
        change(random, &mut documents);
    }
    if random.once_in(4) {
        change(random, &mut scores);
    }
    let k = random.pick(&[0, 1, 2, 2, 10, 10, 100, 1024, 1025, u32::MAX]);
    let t = random.pick(&[0, 1, 5, documents.len() as u32, u32::MAX]);
    Lists {
        documents,
        scores,
        k,
        t,
    }
}

/// Tokens for an index: some in order, often with words changed; and words without any sense.
pub fn tokens(random: &mut Random) -> Tokens {
    let mut made = match random.below(32) {
        0 => make::large(random),
        1 => Tokens {
            n: random.pick(&[0, 1, 5, 1_048_576]),
            fields: make::fields(random, 2),
            tokens: words(random, 12),
            leaf_fields: words(random, 3),
        },
        2 => make::searched(random),
        _ => make::small(random),
    };
    for _ in 0..random.pick(&[0, 0, 0, 0, 0, 1, 1, 2]) {
        change_tokens(random, &mut made);
    }
    made
}

/// Something changed of what an index is made from; it may still be sound.
pub fn change_tokens(random: &mut Random, made: &mut Tokens) {
    match random.below(8) {
        0 => {
            let beside = [made.n.saturating_sub(1), made.n + 1];
            made.n = random.pick(&[beside[0], beside[1], 1_048_576, 1_048_577]);
        }
        1 => change(random, &mut made.fields),
        2 | 3 => change(random, &mut made.leaf_fields),
        4 => made.leaf_fields.resize(random.pick(&[512, 513]), 0),
        _ => change(random, &mut made.tokens),
    }
}

/// Outputs that are mostly exactly as long as they must be; often one alone is not.
pub fn outputs(random: &mut Random, made: &Tokens) -> tokens::Lengths {
    let mut lent = compare::needed(made);
    for _ in 0..random.pick(&[0, 0, 0, 0, 1, 1, 3]) {
        let which = random.below(5) as usize;
        let length = &mut *lent.each()[which];
        *length = wrong_length(random, *length);
    }
    for length in lent.each() {
        *length = (*length).min(ROOM);
    }
    lent
}
