//! The rows of request 2026-02, an index made from tokens: the answer, each output afterwards, and
//! the tokens that are read back. What they must give is the judge's.
use super::entries::of_lists;
use super::{Entry, Row, words};
use crate::tokens::calls::{Call, by_hand, damaged, generated};
use crate::tokens::judge::{self, read_back};
use crate::tokens::make::MOST_DOCUMENTS;
use crate::tokens::{ANSWERED, MOST_LEAVES, Tokens, WORDS, Written};

/// What stands in an output before a call.
const BEFORE: u8 = 7;

/// What each output holds afterwards.
const OUTPUTS: [&str; 4] = [
    "written_norms",
    "written_postings",
    "written_positions",
    "written_runs",
];

/// Every third call is a row; crates/vectors_tokens has them all.
const EVERY: usize = 3;

/// Some of the calls by hand and of the damaged ones, and a generated one for every 48 rows of other
/// entries.
pub fn rows(number: usize) -> Vec<Row> {
    let kept = by_hand().into_iter().chain(damaged(16)).filter(small);
    let more = (0..).map(generated).filter(small).take(number / 48);
    let calls = kept.step_by(EVERY).chain(more);
    calls.map(|call| write(&call)).collect()
}

/// What antt computes in a fraction of a second: many documents or leaves only where their number
/// is refused. The two answered numbers have no buffer there.
fn small(call: &Call) -> bool {
    let Tokens { n, leaf_fields, .. } = &call.tokens;
    let documents = *n <= 8 || *n > MOST_DOCUMENTS;
    let leaves = leaf_fields.len() <= 12 || leaf_fields.len() > MOST_LEAVES;
    let tokens = call.tokens.tokens.len() <= WORDS * 12;
    documents && leaves && tokens && call.lent.answer >= ANSWERED
}

/// A call of the token writer.
fn write(call: &Call) -> Row {
    let tokens = &call.tokens;
    let lists = [&tokens.fields, &tokens.leaf_fields, &tokens.tokens].map(|list| words(list));
    let [fields, leaf_fields, list] = &lists;
    let given = format!("{} ({fields}) ({leaf_fields}) ({list})", tokens.n);
    let lent = &call.lent;
    let lengths = [lent.norms, lent.postings, lent.positions, lent.runs];
    let [a, b, c, d] = lengths;
    let outputs = format!("(outputs {a} {b} {c} {d})");
    let right = judge::write(tokens.given(), lent);
    let number = right.as_ref().err().copied().unwrap_or(0);
    let answer = right.as_ref().map_or(vec![u64::from(number)], |written| {
        [&[0], &written.answer()[..]].concat()
    });
    let mut equations = vec![(format!("write_answer {given} {outputs}"), words(&answer))];
    let refusal = format!("(write_refusal {given} {outputs})");
    let held = held(right.as_ref().unwrap_or(&Written::default()), lengths);
    for ((name, length), held) in OUTPUTS.iter().zip(lengths).zip(held) {
        let before = format!("(replicate {length} {BEFORE})");
        let call = format!("{name} {refusal} {given} {before}");
        equations.push((call, words(&held)));
    }
    if let Ok(written) = &right {
        let call = format!("read_back {given}");
        equations.push((call, words(&told(tokens, written))));
    }
    of_lists(Entry::Write, number, equations)
}

/// The outputs afterwards: what was written, then what stood there before.
fn held(written: &Written, lengths: [usize; 4]) -> [Vec<u32>; 4] {
    let norms = written.norms.iter().map(|byte| u32::from(*byte)).collect();
    let Written {
        postings,
        positions,
        runs,
        ..
    } = written.clone();
    let mut outputs = [norms, postings, positions, runs];
    for (output, length) in outputs.iter_mut().zip(lengths) {
        output.resize(length, u32::from(BEFORE));
    }
    outputs
}

/// The words of the tokens that are read back; 0 where there is no position.
fn told(tokens: &Tokens, written: &Written) -> Vec<u32> {
    let back = read_back(tokens.given(), written);
    let token = |(leaf, document, position): (u32, u32, Option<u32>)| {
        [leaf, document, position.unwrap_or(0)]
    };
    back.flat_map(token).collect()
}
