//! The judge of request 2026-02, from its text: the number with which a call is refused, the index
//! that is written, and the tokens that are read back from one. It is also the benchmark's measure.
use super::norm_byte::norm_byte;
use super::{ANSWERED, Given, Lengths, MOST_LEAVES, MOST_POSITION, MOST_TOKENS};
use super::{RUN_WORDS, Token, WORDS, Write, Writer, Written};
use crate::refusal::{too_many_documents, wrong_fields};

/// Writes plainly; of its own it has one count for each document.
pub struct Judge;

impl Writer for Judge {
    fn write(&self, call: Write) -> u32 {
        let number = number(call.given, &Lengths::of(&call));
        if number == 0 {
            fill(call);
        }
        number
    }
}

/// What is right for a call whose outputs are so long.
pub fn write(given: Given, lent: &Lengths) -> Result<Written, u32> {
    match number(given, lent) {
        0 => Ok(written(given)),
        number => Err(number),
    }
}

/// The lowest of 1, 2, 15 and 16 that holds, or 0.
pub fn number(given: Given, lent: &Lengths) -> u32 {
    if too_many_documents(given.n) {
        return 1;
    }
    if wrong_fields(given.fields) {
        return 2;
    }
    match needed(given) {
        None => 15,
        Some(needed) if short(lent, &needed) => 16,
        Some(_) => 0,
    }
}

fn short(lent: &Lengths, needed: &Lengths) -> bool {
    lent.norms < needed.norms
        || lent.postings < needed.postings
        || lent.positions < needed.positions
        || lent.runs < needed.runs
        || lent.answer < needed.answer
}

/// The outputs that a call needs, where neither 1 nor 2 holds; `None` where 15 holds.
pub fn needed(given: Given) -> Option<Lengths> {
    let fields = given.fields.len() / WORDS;
    let absent = |field: &u32| *field as usize >= fields;
    let whole = given.tokens.len().is_multiple_of(WORDS);
    if !whole
        || given.tokens.len() / WORDS > MOST_TOKENS
        || given.leaf_fields.len() > MOST_LEAVES
        || given.leaf_fields.iter().any(absent)
    {
        return None;
    }
    let [postings, positions] = counted(given)?;
    Some(Lengths {
        norms: given.n as usize * given.with_norms().count(),
        postings: WORDS * postings,
        positions,
        runs: RUN_WORDS * given.leaf_fields.len(),
        answer: ANSWERED,
    })
}

/// The numbers of postings and positions, where no token is wrong. What is wrong is gathered
/// without a branch, for which token begins a posting can't be foretold.
fn counted(given: Given) -> Option<[usize; 2]> {
    let leaves = 0..given.leaf_fields.len() as u32;
    let positions: Vec<_> = leaves.map(|leaf| given.has_positions(leaf)).collect();
    let Some(mut before) = given.records().first() else {
        return Some([0; 2]);
    };
    let mut numbers = [1, 0];
    let mut wrong = false;
    for token in given.records() {
        numbers[1] += usize::from(*positions.get(token[0] as usize)?);
        let [posting, posting_before] = [token, before].map(posting);
        let same = posting == posting_before;
        wrong |= (posting < posting_before) | same & (token[2] < before[2]);
        wrong |= (token[1] >= given.n) | (token[2] > MOST_POSITION);
        numbers[0] += usize::from(!same);
        before = token;
    }
    (!wrong).then_some(numbers)
}

/// Leaf and document as one number, in their order.
fn posting(token: &Token) -> u64 {
    u64::from(token[0]) << 32 | u64::from(token[1])
}

/// The index of tokens that are not refused.
pub fn written(given: Given) -> Written {
    let needed = needed(given).expect("tokens that are not refused");
    let mut written = Written {
        norms: vec![0; needed.norms],
        postings: vec![0; needed.postings],
        positions: vec![0; needed.positions],
        runs: vec![0; needed.runs],
    };
    let mut answer = [0; ANSWERED];
    fill(Write {
        given,
        norms: &mut written.norms,
        postings: &mut written.postings,
        positions: &mut written.positions,
        runs: &mut written.runs,
        answer: &mut answer,
    });
    assert_eq!(answer, written.answer(), "as many as were counted");
    written
}

/// Writes the outputs of a call that is not refused.
fn fill(call: Write) {
    let given = call.given;
    let runs = &mut call.runs[..RUN_WORDS * given.leaf_fields.len()];
    runs.fill(0);
    let (mut postings, mut positions) = (0, 0);
    for own in given.records().chunk_by(|one, other| one[0] == other[0]) {
        let leaf = own[0][0];
        let first = given.has_positions(leaf).then_some(positions);
        let number = fill_run(own, first, &mut call.postings[WORDS * postings..]);
        runs[RUN_WORDS * leaf as usize + 1] = number as u32;
        postings += number;
        if given.has_positions(leaf) {
            let places = call.positions[positions..].iter_mut().zip(own);
            places.for_each(|(place, token)| *place = token[2]);
            positions += own.len();
        }
    }
    let mut first = 0;
    for run in runs.chunks_mut(RUN_WORDS) {
        run[0] = first;
        first += run[1];
    }
    fill_norms(given, call.postings, runs, call.norms);
    call.answer[..ANSWERED].copy_from_slice(&[postings as u64, positions as u64]);
}

/// Writes the postings of a leaf's tokens, whose positions begin at `first`; gives their number. A
/// posting is written again with each of its tokens, so that nothing hangs on where it ends.
fn fill_run(own: &[Token], first: Option<usize>, postings: &mut [u32]) -> usize {
    let postings = postings.as_chunks_mut().0;
    let mut begun = 0;
    let mut start = 0;
    let mut before = u32::MAX;
    for (at, &[_, document, _]) in own.iter().enumerate() {
        let begins = document != before;
        begun += usize::from(begins);
        start = if begins { at } else { start };
        let index = first.map_or(0, |first| first + start);
        postings[begun - 1] = [document, (at - start + 1) as u32, index as u32];
        before = document;
    }
    begun
}

/// For each field with norms the byte of each document's count.
fn fill_norms(given: Given, postings: &[u32], runs: &[u32], norms: &mut [u8]) {
    let n = given.n as usize;
    let mut counts = vec![0; n];
    for (field, bytes) in given.with_norms().zip(norms.chunks_mut(n.max(1))) {
        counts.fill(0);
        let leaves = given.leaf_fields.iter().zip(runs.chunks(RUN_WORDS));
        for (_, run) in leaves.filter(|(own, _)| **own == field) {
            let [first, number] = [run[0], run[1]].map(|word| WORDS * word as usize);
            let run = postings[first..][..number].as_chunks().0;
            for [document, frequency, _] in run {
                counts[*document as usize] += frequency;
            }
        }
        let pairs = bytes.iter_mut().zip(&counts);
        pairs.for_each(|(byte, count)| *byte = norm_byte(*count));
    }
}

/// A token as it can be read back: in a field without positions it has none.
pub type Told = (u32, u32, Option<u32>);

/// The tokens as they must be read back.
pub fn told(given: Given) -> impl Iterator<Item = Told> {
    let records = given.records().iter();
    records.map(move |&[leaf, document, position]| {
        let with = given.has_positions(leaf);
        (leaf, document, with.then_some(position))
    })
}

/// The tokens of a written index; of what it is made from only fields and leaf fields are read.
pub fn read_back<'a>(given: Given<'a>, written: &'a Written) -> impl Iterator<Item = Told> + 'a {
    let leaves = (0..).zip(written.runs.chunks(RUN_WORDS));
    leaves.flat_map(move |(leaf, run)| {
        let postings = written.postings.as_chunks().0.iter();
        let own = postings.skip(run[0] as usize).take(run[1] as usize);
        own.flat_map(move |&[document, frequency, first]| {
            let position = move |at: u32| written.positions[(first + at) as usize];
            let with = given.has_positions(leaf);
            (0..frequency).map(move |at| (leaf, document, with.then(|| position(at))))
        })
    })
}
