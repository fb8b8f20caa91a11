//! Scores and costs of terms, phrases, ranges and MatchAll as document 01 words them.
use super::model::Slip;
use super::plain::{in_range, postings, starts};
use harness::case::Case;
use harness::oracle;
use harness::query::*;

/// The score of each document that is taken, dead ones too.
pub type Scores = Vec<Option<f32>>;

/// The documents that a leaf's cost counts; of a phrase, for each of its terms.
pub fn runs(case: &Case, node: &Node) -> Vec<Vec<u32>> {
    let run = |leaf: u32| postings(case, leaf).map(|posting| posting[0]).collect();
    match node.kind {
        TERM => vec![run(node.values[0])],
        PHRASE => node.children.iter().map(|c| run(c.values[0])).collect(),
        RANGE => {
            let inside = |document: &u32| in_range(case, node.values, *document);
            vec![(0..case.n).filter(inside).collect()]
        }
        MATCH_ALL => vec![(0..case.n).collect()],
        _ => vec![],
    }
}

/// The scores of a node without children of its own meaning; `reaching` is its boost.
pub fn leaf_scores(case: &Case, node: &Node, reaching: f32, slip: Slip) -> Scores {
    let mut scores = vec![None; case.n as usize];
    match node.kind {
        TERM => {
            let weight = reaching * idf(case, node.values[0]);
            let field = case.leaves[4 * node.values[0] as usize];
            for posting in postings(case, node.values[0]) {
                let inverse = inverse(case, field, posting[0], slip);
                scores[posting[0] as usize] = Some(bm25(weight, posting[1], inverse));
            }
        }
        PHRASE => {
            let weight = reaching * phrase_idf(case, node, slip);
            for document in 0..case.n {
                let mut starts = starts(case, node, document);
                starts.retain(|start| slip != Slip::StartsUnsigned || *start >= 0);
                let inverse = inverse(case, node.values[0], document, slip);
                let score = bm25(weight, starts.len() as u32, inverse);
                scores[document as usize] = (!starts.is_empty()).then_some(score);
            }
        }
        _ => {
            for document in runs(case, node).into_iter().flatten() {
                scores[document as usize] = Some(reaching);
            }
        }
    }
    scores
}

fn idf(case: &Case, leaf: u32) -> f32 {
    f32::from_bits(case.leaves[4 * leaf as usize + 3])
}

/// Added in f64 from 0 in record order, then narrowed.
fn phrase_idf(case: &Case, node: &Node, slip: Slip) -> f32 {
    let mut terms: Vec<_> = node
        .children
        .iter()
        .map(|c| (c.values[1], c.values[0]))
        .collect();
    if slip == Slip::IdfByOffset {
        terms.sort();
    }
    let idfs = terms.iter().map(|(_, leaf)| f64::from(idf(case, *leaf)));
    idfs.fold(0.0, |sum, idf| sum + idf) as f32
}

fn bm25(weight: f32, frequency: u32, inverse: f32) -> f32 {
    weight - weight / (1.0 + frequency as f32 * inverse)
}

/// Norm bytes are packed by the fields that have norms; without norms the byte is 1.
fn inverse(case: &Case, field: u32, document: u32, slip: Slip) -> f32 {
    let record = &case.fields[3 * field as usize..];
    let before = case.fields.chunks(3).take(field as usize);
    let packed = match slip {
        Slip::NormsByField => field as usize,
        _ => before.filter(|f| f[1] == 1).count(),
    };
    let at = packed * case.n as usize + document as usize;
    let byte = match record[1] {
        1 => case.norms.get(at).copied().unwrap_or(0),
        _ => u8::from(slip != Slip::NoNormsZero),
    };
    let length = match slip {
        Slip::LengthCutOff => cut_off(oracle::length(byte)),
        _ => oracle::length(byte) as f32,
    };
    let average = f32::from_bits(record[0]);
    1.0 / (1.2 * ((1.0 - 0.75) + (0.75 * length) / average))
}

/// The length rounded down instead of to the nearest.
fn cut_off(length: u32) -> f32 {
    let kept = length.leading_zeros().min(8);
    let lost = 8 - kept;
    (length >> lost << lost) as f32
}
