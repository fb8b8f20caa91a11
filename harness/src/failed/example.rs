//! The worked examples of request 2026-03, with what each lists or scores.
use crate::case::Case;
use crate::catalogue::Catalogue;
use crate::generate::{X, Y, Z};
use crate::query::*;

const INFINITY: u64 = 0x7ff0 << 48;
const SIGN: u64 = 1 << 63;
const NAN: u64 = 0x7ff8 << 48;

/// 17.5, NaNs and infinities of both signs, 18, and an absent value with the halves of a NaN.
fn index(kind: u32) -> Catalogue {
    let numbers = [17.5, 18.0].map(f64::to_bits);
    let words = [
        numbers[0],
        NAN,
        SIGN | NAN,
        INFINITY,
        SIGN | INFINITY,
        numbers[1],
    ];
    let mut index = Catalogue::new(7);
    let present = words.map(|bits| [1, bits as u32, (bits >> 32) as u32]);
    let values = [present.as_flattened(), &[0, 0, 0x7ff8_0000]].concat();
    index.column_of_words(kind, &values);
    index
}

/// A range, and the documents that it lists, first in the column of f64 values and then in that of
/// i64 values.
pub fn ranges() -> Vec<(Case, Vec<u32>)> {
    let f64_rows: [(Node, &[u32]); 8] = [
        (range(0, 0, 0, 0), &[0, 3, 4, 5]),
        (range(0, 1, 18f64.to_bits(), 0), &[3, 5]),
        (range(0, 3, 0, SIGN | INFINITY), &[4]),
        (range(0, 1, SIGN | NAN, 0), &[]),
        (range(0, 6, 0, NAN), &[]),
        (range(0, 4, SIGN | NAN, NAN), &[]),
        (range(0, 7, SIGN | INFINITY, NAN), &[]),
        (range(0, 4, SIGN | INFINITY, INFINITY), &[0, 3, 4, 5]),
    ];
    let i64_rows: [(Node, &[u32]); 3] = [
        (range(0, 0, 0, 0), &[0, 1, 2, 3, 4, 5]),
        (range(0, 1, INFINITY, 0), &[1, 3]),
        (range(0, 4, SIGN | NAN, NAN), &[0, 1, 2, 3, 5]),
    ];
    let asked = |kind, rows: &[(Node, &[u32])]| {
        let case =
            |(node, listed): &(Node, &[u32])| (index(kind).case(7, 3, node), listed.to_vec());
        rows.iter().map(case).collect::<Vec<_>>()
    };
    [asked(1, &f64_rows), asked(0, &i64_rows)].concat()
}

/// Document 0 measures 18, documents 1 and 2 failed. "18 and over" lists one document, so it costs
/// less than the word in documents 0 and 1; were the failed ones counted, it would cost more, and the
/// score's last bit would be another. So too without ends, and up to 18 with the other sign; in a
/// group, where a range with a NaN end adds nothing to what a word costs; and in one that would cost
/// less if such a range had no scorer.
pub fn costs() -> Vec<(Case, u32)> {
    let micron = 18f64.to_bits();
    let mut rows = Vec::new();
    for bits in [NAN, INFINITY + 1, u64::MAX >> 1] {
        let [over, no_upper] = [range(0, 1, micron, 0), range(0, 3, 0, bits)];
        rows.extend(pivoted(bits, over, no_upper));
        let [up_to, no_lower] = [range(0, 3, 0, micron), range(0, 1, SIGN | bits, 0)];
        rows.extend(pivoted(SIGN | bits, up_to, no_lower));
    }
    rows
}

/// The case of such readings, a range that would count them, and one that has them as its end.
fn pivoted(bits: u64, counting: Node, ended: Node) -> Vec<(Case, u32)> {
    let mut index = Catalogue::new(3);
    let field = index.field();
    let one = term(index.leaf(field, &[0]));
    let two = term(index.leaf(field, &[0, 1]));
    index.column_of_f64(&[Some(18f64.to_bits()), Some(bits), Some(bits)]);
    let beside = |node: Node| boolean(0, [one.clone().should(), node.should()]);
    let never = boolean(2, [ended.clone().should(), two.clone().should()]);
    let cheap = [counting, range(0, 0, 0, 0), beside(ended)];
    let pivots = cheap.map(|pivot| (pivot, [0x3f80_0001, 0x3f80_0000]));
    let dear = (beside(never), [0x3f80_0000, 0x3f80_0001]);
    let mut rows = Vec::new();
    for (pivot, scores) in pivots.into_iter().chain([dear]) {
        for (weights, bits) in [[X, Y, Z], [X, Z, Y]].into_iter().zip(scores) {
            let nodes = [one.clone(), pivot.clone(), two.clone()];
            let clauses = weights.into_iter().zip(nodes);
            let clauses: Vec<_> = clauses.map(|(w, node)| weighted(w, node).must()).collect();
            rows.push((index.case(3, 3, &boolean(0, clauses)), bits));
        }
    }
    rows
}
