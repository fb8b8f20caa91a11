//! Every case of a small size: all Booleans over leaves of up to three documents, all phrases of
//! two short position lists, all ranges between the values at which an order of numbers may slip.
use super::BY_ORDER;
use crate::case::Case;
use crate::catalogue::Catalogue;
use crate::failed::has_failed_end;
use crate::query::*;

const OCCURRENCES: [u32; 4] = [MUST, SHOULD, MUST_NOT, FILTER];

/// All indexes of so many documents and leaves, with all live words.
pub fn indexes(n: u32, leaves: u32) -> Vec<Catalogue> {
    let mut all = Vec::new();
    let subsets = 1 << n;
    for runs in 0..1 << (n * leaves) {
        let mut catalogue = Catalogue::new(n);
        let field = catalogue.field();
        for leaf in 0..leaves {
            let run: Vec<_> = (0..n).filter(|d| runs >> (leaf * n + d) & 1 == 1).collect();
            catalogue.leaf(field, &run);
        }
        all.push(catalogue.clone());
        for dead in 1..subsets {
            let mut some = catalogue.clone();
            let dead = (0..n).filter(|d| dead >> d & 1 == 1);
            dead.for_each(|document| some.kill(document));
            all.push(some);
        }
    }
    all
}

/// Each clause list over the first leaves, of every occurrence, with every msm that differs.
pub fn booleans(leaves: u32) -> Vec<Node> {
    let mut all = Vec::new();
    for clauses in 0..=leaves {
        for mut choice in 0..4u32.pow(clauses) {
            let mut list = Vec::new();
            for leaf in 0..clauses {
                let clause = weighted(BY_ORDER[leaf as usize % 3], term(leaf));
                list.push(clause.occurring(OCCURRENCES[choice as usize % 4]));
                choice /= 4;
            }
            for msm in (0..=clauses + 1).chain([u32::MAX]) {
                all.push(boolean(msm, list.clone()));
            }
        }
    }
    all
}

/// A Boolean of two leaves beside a leaf in another, of every occurrence.
pub fn nested() -> Vec<Node> {
    let mut all = Vec::new();
    for choice in 0..256 {
        let occurrence = |place: u32| OCCURRENCES[choice >> (2 * place) & 3];
        let [x, y, z] = BY_ORDER;
        let first = weighted(x, term(0)).occurring(occurrence(0));
        let second = weighted(y, term(1)).occurring(occurrence(1));
        let beside = weighted(z, term(0)).occurring(occurrence(2));
        for msm in [[0, 0], [1, 0], [2, 0], [0, 1], [1, 1]] {
            let inner = boolean(msm[0], [first.clone(), second.clone()]);
            let inner = inner.occurring(occurrence(3));
            all.push(boolean(msm[1], [inner, beside.clone()]));
        }
    }
    all
}

/// Ascending lists of up to three positions below 3.
fn position_lists() -> Vec<Vec<u32>> {
    let mut all = Vec::new();
    for a in 0..3 {
        all.push(vec![a]);
        for b in a..3 {
            all.push(vec![a, b]);
            all.extend((b..3).map(|c| vec![a, b, c]));
        }
    }
    all
}

/// Each phrase of two leaves, one after the other, twice the same place, or with falling offsets.
pub fn phrases() -> Vec<Case> {
    let mut all = Vec::new();
    for first in position_lists() {
        for second in position_lists() {
            let mut catalogue = Catalogue::new(1);
            let field = catalogue.field_with_positions();
            let leaves = [&first, &second]
                .map(|list| catalogue.leaf_of_positions(field, 1.5, &[(0, list.as_slice())]));
            for offsets in [[0, 0], [0, 1], [0, 2], [1, 0], [1, 1], [2, 0]] {
                let terms = [(leaves[0], offsets[0]), (leaves[1], offsets[1])];
                all.push(catalogue.case(1, 1, &phrase(field, &terms)));
            }
        }
    }
    all
}

/// Whole numbers at the ends of their kind and around 0.
fn whole_numbers() -> Vec<u64> {
    let edges = [i64::MIN, i64::MIN + 1, -1, 0, 1, i64::MAX - 1, i64::MAX];
    edges.map(|value| value as u64).to_vec()
}

/// Patterns of f64: NaNs with several payloads, infinities, the largest, ones, the least, zeros,
/// each with both signs.
fn floats() -> Vec<u64> {
    let above = [
        u64::MAX >> 1,
        0x7ff8 << 48,
        (0x7ff0 << 48) + 1,
        f64::INFINITY.to_bits(),
        f64::MAX.to_bits(),
        1f64.to_bits(),
        1,
        0,
    ];
    let below = above.map(|bits| bits | 1 << 63);
    [above, below].concat()
}

/// Each range between two of the values that its column holds, but for NaN ends.
pub fn ranges() -> Vec<Case> {
    let all = all_ranges().into_iter();
    all.filter(|case| !has_failed_end(case)).collect()
}

/// Each of them that has a NaN end.
pub fn ranges_with_failed_ends() -> Vec<Case> {
    let all = all_ranges().into_iter();
    all.filter(has_failed_end).collect()
}

fn all_ranges() -> Vec<Case> {
    let mut all = Vec::new();
    for (kind, values) in [(0, whole_numbers()), (1, floats())] {
        let mut catalogue = Catalogue::new(values.len() as u32 + 1);
        let mut present: Vec<_> = values.iter().copied().map(Some).collect();
        present.insert(values.len() / 2, None);
        let column = match kind {
            0 => catalogue.column_of_i64(
                &present
                    .iter()
                    .map(|v| v.map(|v| v as i64))
                    .collect::<Vec<_>>(),
            ),
            _ => catalogue.column_of_f64(&present),
        };
        for kinds in 0..9 {
            let ends = |kind: u32| if kind == 0 { vec![0] } else { values.clone() };
            for lower in ends(kinds % 3) {
                for upper in ends(kinds / 3) {
                    let alone = range(column, kinds, lower, upper);
                    all.push(catalogue.case(32, 3, &alone));
                    let clause = OCCURRENCES[all.len() % 4];
                    let only = boolean(0, [alone.occurring(clause)]);
                    all.push(catalogue.case(32, 3, &only));
                }
            }
        }
    }
    all
}
