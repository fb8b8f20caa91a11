//! Small trees of every kind over one small index, in which an order of additions, a narrowing, a cost or
//! a scorer that is not there shows in what they answer.
use crate::case::Case;
use crate::catalogue::Catalogue;
use crate::generate::{BY_ORDER, X, Y, Z};
use crate::query::*;

const ONE: u32 = 0x3f80_0000;
/// half of the last place of 1
const HALF: u32 = 0x3380_0000;
const TWO: u32 = 0x4000_0000;
const THREE: u32 = 0x4040_0000;

const ORDERS: [[usize; 3]; 6] = [
    [0, 1, 2],
    [0, 2, 1],
    [1, 0, 2],
    [1, 2, 0],
    [2, 0, 1],
    [2, 1, 0],
];

/// Documents of the index; the last two are dead.
const N: u32 = 10;

// Leaves after the eight of `first`.
const EMPTY: u32 = 8;
const A: u32 = 9;
const B: u32 = 10;
const C: u32 = 11;
const HALF_DEAD: u32 = 12;
const NORMED: u32 = 13;
const PACKED: u32 = 14;
/// seven leaves of a field with positions, the first three with idf x, y, z
const PLACED: u32 = 15;
const PHRASES: u32 = 3;

pub fn cases() -> Vec<Case> {
    let index = index();
    let case = |(i, tree): (u32, &Node)| index.case(1 + i % 4, i % 7, tree);
    let mut cases: Vec<_> = (0..).zip(&trees()).map(case).collect();
    for tree in [match_all(), boolean(0, [match_all().must()])] {
        cases.push(Catalogue::new(0).case(1, 0, &tree));
    }
    cases
}

fn index() -> Catalogue {
    let mut index = Catalogue::new(N);
    let field = index.field();
    for cost in 1..=8 {
        index.leaf(field, &(0..cost).collect::<Vec<_>>());
    }
    for run in [&[][..], &[1, 4, 6], &[4, 6], &[1, 7], &[0, 8, 9]] {
        index.leaf(field, run);
    }
    let [bytes, others] = [
        [0, 23, 24, 41, 223, 224, 225, 226, 254, 255],
        [7, 9, 30, 31, 32, 33, 34, 35, 36, 37],
    ];
    let frequencies = [1, 2, 16_777_216, 5, 16_777_215, 1, 3, 7, 2, 1];
    let run: Vec<_> = (0..).zip(frequencies).collect();
    for (average, bytes) in [(16_777_216.0, bytes), (2.5, others)] {
        let field = index.field_with(average, Some(&bytes), false);
        index.leaf_of_frequencies(field, 3.5, &run);
    }
    placed(&mut index);
    columns(&mut index);
    index.kill(8);
    index.kill(9);
    index
}

fn placed(index: &mut Catalogue) {
    let field = index.field_with(16_777_216.0, None, true);
    assert_eq!(field, PHRASES);
    const MOST: u32 = 2_147_483_647;
    type Run = &'static [(u32, &'static [u32])];
    let runs: [(u32, Run); 7] = [
        (X, &[(0, &[0, 4]), (1, &[3]), (2, &[7])]),
        (Y, &[(0, &[2]), (1, &[5])]),
        (Z, &[(0, &[1]), (1, &[4]), (3, &[0])]),
        (ONE, &[(0, &[0, 5, 5]), (1, &[0, 0]), (2, &[MOST])]),
        (TWO, &[(0, &[6, 6, 9]), (1, &[1]), (2, &[0])]),
        (HALF, &[(4, &[0, 0, 0, 1, 1, 2]), (8, &[0])]),
        (ONE, &[]),
    ];
    for (idf, run) in runs {
        index.leaf_of_positions(field, f32::from_bits(idf), run);
    }
}

fn columns(index: &mut Catalogue) {
    let whole = [17, 18, 18, 0, -1, i64::MIN, i64::MAX, 17, 18, 18];
    let mut whole = whole.map(Some);
    whole[3] = None;
    index.column_of_i64(&whole);
    let mut floats = FLOATS.map(Some);
    floats[7] = None;
    index.column_of_f64(&floats);
}

/// NaNs of both signs, infinities, zeros of both signs.
const FLOATS: [u64; 10] = [
    0x7ff8_0000_0000_0000,
    0xfff8_0000_0000_0000,
    0x7ff0_0000_0000_0000,
    0xfff0_0000_0000_0000,
    0x0000_0000_0000_0000,
    0x8000_0000_0000_0000,
    0x3ff0_0000_0000_0000,
    0x4031_0000_0000_0000,
    0x7ff0_0000_0000_0001,
    0x4031_8000_0000_0000,
];

fn trees() -> Vec<Node> {
    [
        leaves(),
        ranges(),
        phrases(),
        kept(),
        required(),
        optional(),
        grouped(),
        needed(),
        narrowed(),
        without_scorer(),
        costs(),
        vec![deep()],
    ]
    .concat()
}

/// The leaf in the first so many documents; so many is its cost.
fn first(cost: u32) -> Node {
    term(cost - 1)
}

fn at(bits: u32, cost: u32) -> Node {
    weighted(bits, first(cost))
}

fn leaves() -> Vec<Node> {
    let terms = [
        0,
        EMPTY,
        A,
        B,
        C,
        HALF_DEAD,
        NORMED,
        PACKED,
        PLACED,
        PLACED + 5,
    ];
    let mut leaves: Vec<_> = terms.map(term).to_vec();
    leaves.extend([match_all(), match_none(), boost(THREE, match_all())]);
    leaves.extend([NORMED, PACKED, PLACED + 1].map(|leaf| boost(0x40b3_3333, term(leaf))));
    leaves
}

/// All nine kinds on both columns, for ends that values have, and crossed.
fn ranges() -> Vec<Node> {
    let pairs = [
        [17, 18],
        [18, 18],
        [18, 17],
        [-1i64 as u64, i64::MAX as u64],
    ];
    let whole = pairs.map(|ends| (0, ends));
    let pairs = [[3, 2], [1, 8], [5, 4], [4, 4], [0, 1], [6, 0]];
    let floats = pairs.map(|ends| (1, ends.map(|i| FLOATS[i])));
    let mut ranges = Vec::new();
    for kinds in 0..9 {
        let end = |kind: u32, bits: u64| if kind == 0 { 0 } else { bits };
        for (column, [lower, upper]) in whole.iter().chain(&floats) {
            let ends = [end(kinds % 3, *lower), end(kinds / 3, *upper)];
            ranges.push(range(*column, kinds, ends[0], ends[1]));
        }
    }
    ranges.dedup();
    ranges.push(boost(TWO, range(0, 4, 17, 18)));
    ranges.push(several_ranges());
    ranges
}

/// Each has places of its own in the range buffer.
fn several_ranges() -> Node {
    let clauses = [
        range(0, 1, 0, 0).filter(),
        boost(TWO, range(1, 4, FLOATS[5], FLOATS[2])).should(),
        term(A).should(),
        boost(THREE, range(0, 4, 18, 18)).should(),
        term(C).should(),
        range(1, 3, 0, FLOATS[3]).must_not(),
    ];
    boolean(0, clauses)
}

fn placed_phrase(terms: &[(u32, u32)]) -> Node {
    let terms: Vec<_> = terms.iter().map(|(l, o)| (PLACED + l, *o)).collect();
    phrase(PHRASES, &terms)
}

/// Orders of idf, repeated positions, starts below 0, offsets at the end, leaves without postings.
fn phrases() -> Vec<Node> {
    let three = [(0, 0), (1, 2), (2, 1)];
    let mut phrases: Vec<_> = ORDERS
        .map(|order| placed_phrase(&order.map(|i| three[i])))
        .to_vec();
    let most = 2_147_483_647;
    let terms: [&[(u32, u32)]; 13] = [
        &[(3, 0), (4, 1)],
        &[(4, 1), (3, 0)],
        &[(4, 0), (3, 0)],
        &[(3, 0), (4, 6)],
        &[(3, 1)],
        &[(3, most), (4, most)],
        &[(3, most), (4, 0)],
        &[(5, 0), (5, 0)],
        &[(5, 0), (5, 1)],
        &[(5, 3)],
        &[(5, 0), (6, 0)],
        &[(0, 0), (0, 4)],
        &[(2, 5), (0, 4), (1, 6)],
    ];
    phrases.extend(terms.map(placed_phrase));
    phrases.push(boost(0x3f8c_cccd, placed_phrase(&three)));
    phrases.push(constant_score(placed_phrase(&three)));
    phrases
}

/// Boosts above and below ConstantScore, carried down in turn, and passed on by occurrence.
fn kept() -> Vec<Node> {
    let of = |bits, node| boost(bits, node);
    let inside = || constant_score(of(TWO, first(2)));
    let below = |node: Node, occurrence| boolean(0, [node.occurring(occurrence)]);
    vec![
        constant_score(first(3)),
        inside(),
        of(THREE, inside()),
        of(THREE, constant_score(of(TWO, constant_score(first(2))))),
        of(TWO, of(THREE, constant_score(match_all()))),
        of(0x417b_0134, of(0x412f_c15e, of(0x4175_b9f1, match_all()))),
        of(0x412f_c15e, of(0x417b_0134, term(NORMED))),
        of(0, term(NORMED)),
        of(
            THREE,
            constant_score(boolean(0, [first(2).must(), at(TWO, 3).should()])),
        ),
        of(
            THREE,
            constant_score(boolean(1, [first(4).filter(), at(TWO, 2).should()])),
        ),
        of(THREE, below(match_all(), MUST)),
        of(THREE, below(match_all(), SHOULD)),
        of(THREE, below(match_all(), FILTER)),
        below(of(THREE, inside()), FILTER),
        below(below(of(THREE, inside()), FILTER), MUST),
        boolean(0, [at(THREE, 2).filter(), at(TWO, 3).should()]),
        boolean(0, [at(THREE, 2).filter(), at(TWO, 3).must()]),
        boolean(1, [at(THREE, 2).filter(), at(TWO, 3).should()]),
        constant_score(match_none()),
        constant_score(range(0, 4, 17, 18)),
        of(TWO, constant_score(range(1, 3, 0, FLOATS[4]))),
    ]
}

/// x, y and z in every order on leaves of these costs.
fn ordered(occurrence: u32, costs: [u32; 3]) -> Vec<Node> {
    let tree = |order: [usize; 3]| {
        let clause = |i: usize| at(BY_ORDER[order[i]], costs[i]).occurring(occurrence);
        boolean(0, [0, 1, 2].map(clause))
    };
    ORDERS.map(tree).to_vec()
}

fn required() -> Vec<Node> {
    let costs = [[1, 2, 3], [3, 2, 1], [2, 3, 1], [2, 2, 2], [3, 2, 2]];
    costs
        .iter()
        .flat_map(|costs| ordered(MUST, *costs))
        .collect()
}

fn optional() -> Vec<Node> {
    [ordered(SHOULD, [3, 2, 1]), ordered(SHOULD, [2, 2, 2])].concat()
}

/// Two Musts and the group of one Should, of every order of costs, the Should first or last in clause
/// order; and a group of two Shoulds.
fn grouped() -> Vec<Node> {
    let mut trees = Vec::new();
    for [a, b, c] in ORDERS.map(|order| order.map(|i| BY_ORDER[i])) {
        for [cost_a, cost_b, cost_c] in [[1, 3, 3], [3, 3, 3], [1, 3, 2], [2, 3, 1]] {
            let musts = [at(a, cost_a).must(), at(b, cost_b).must()];
            let group = at(c, cost_c).should();
            let [first, second] = musts;
            trees.push(match cost_a {
                1 => boolean(1, [group, first, second]),
                _ => boolean(1, [first, second, group]),
            });
        }
        let shoulds = [at(c, 1).should(), match_none().should(), at(0, 2).should()];
        let musts = [at(a, 1).must(), at(b, 3).must()];
        trees.push(boolean(2, [&shoulds[..], &musts].concat()));
    }
    // what has no scorer adds no cost to the group
    let group = [never().should(), at(Z, 3).should()];
    let musts = [at(X, 1).must(), at(Y, 4).must()];
    trees.push(boolean(1, [group, musts].concat()));
    trees
}

/// msm of every sort, alone, beside a Must and beside a Filter.
fn needed() -> Vec<Node> {
    let shoulds = [A, B, C].map(|leaf| term(leaf).should());
    let required = [
        vec![],
        vec![first(7).must()],
        vec![first(7).filter()],
        vec![at(TWO, 7).must(), term(B).must_not()],
    ];
    let mut trees = Vec::new();
    for msm in [0, 1, 2, 3, 4, u32::MAX] {
        for beside in &required {
            trees.push(boolean(msm, [&shoulds[..], beside].concat()));
        }
        trees.push(boolean(msm, [first(7).must()]));
    }
    trees
}

/// Halves of the last place of 1, which show each narrowing.
fn narrowed() -> Vec<Node> {
    let tree = |msm, musts: &[u32], shoulds: &[u32]| {
        let musts = musts.iter().map(|bits| at(*bits, 1).must());
        let shoulds = shoulds.iter().map(|bits| at(*bits, 1).should());
        boolean(msm, musts.chain(shoulds).collect::<Vec<_>>())
    };
    let nested = |node: Node, occurrence| {
        let beside = at(HALF, 1).occurring(occurrence);
        boolean(0, [node.occurring(occurrence), beside])
    };
    vec![
        tree(0, &[ONE, HALF, HALF], &[]),
        tree(0, &[], &[ONE, HALF, HALF]),
        tree(0, &[ONE, HALF], &[HALF]),
        tree(0, &[ONE], &[HALF, Z]),
        tree(0, &[ONE], &[HALF, HALF]),
        tree(1, &[ONE, HALF], &[HALF]),
        tree(2, &[HALF], &[ONE, HALF]),
        tree(1, &[HALF], &[ONE, HALF]),
        nested(tree(0, &[ONE, HALF], &[]), MUST),
        nested(tree(0, &[], &[ONE, HALF]), SHOULD),
        nested(tree(1, &[HALF], &[ONE]), MUST),
    ]
}

/// What takes nothing though it has a scorer: all its documents are excluded.
fn excluded() -> Node {
    boolean(0, [first(2).must(), first(3).must_not()])
}

/// What has no scorer: too few Shoulds.
fn never() -> Node {
    boolean(3, [first(2).should(), first(3).should()])
}

fn nothing() -> [Node; 8] {
    [
        match_none(),
        term(EMPTY),
        placed_phrase(&[(0, 0), (6, 0)]),
        boolean(0, []),
        boolean(0, [first(1).must_not()]),
        boolean(0, [first(2).must(), match_none().filter()]),
        never(),
        empty_range(),
    ]
}

fn empty_range() -> Node {
    range(0, 4, 19, 20)
}

/// Clauses that have no scorer, or take nothing, at each occurrence.
fn without_scorer() -> Vec<Node> {
    let mut trees = nothing().to_vec();
    trees.extend([
        excluded(),
        boolean(0, [excluded().should(), first(2).should()]),
    ]);
    for clause in nothing() {
        for occurrence in [MUST, SHOULD, MUST_NOT, FILTER] {
            let clause = clause.clone().occurring(occurrence);
            trees.push(boolean(0, [clause, first(2).must()]));
        }
        let clauses = [
            clause.clone().should(),
            first(2).should(),
            first(3).should(),
        ];
        trees.push(boolean(2, clauses.clone()));
        trees.push(boolean(3, clauses));
        trees.push(boolean(0, [clause.must_not(), first(2).should()]));
    }
    trees
}

/// A node that takes document 0, and its cost.
fn pivots() -> Vec<(Node, u32)> {
    let both = |a: Node, b: Node| boolean(0, [a, b]);
    let three = [first(1).should(), first(2).should(), first(3).should()];
    // a range without documents has a scorer, so that two Shoulds have
    let with_empty_range = boolean(2, [empty_range().should(), first(2).should()]);
    vec![
        (first(4), 4),
        (term(HALF_DEAD), 3),
        (match_all(), N),
        (boolean(0, three.clone()), 6),
        (boolean(2, three.clone()), 6),
        (both(first(5).must(), first(3).filter()), 3),
        (both(first(3).must(), first(5).must()), 3),
        (both(first(4).must(), first(2).should()), 4),
        (boolean(1, [first(4).must(), first(2).should()]), 2),
        (boolean(1, [first(2).must(), first(4).should()]), 2),
        (both(first(4).must(), term(B).must_not()), 4),
        (both(first(3).should(), excluded().should()), 5),
        (both(first(3).should(), never().should()), 3),
        (both(first(3).should(), term(EMPTY).should()), 3),
        (both(first(3).should(), empty_range().should()), 3),
        (both(first(3).should(), with_empty_range.should()), 5),
        (range(0, 4, 17, 18), 6),
        (range(0, 4, 17, 17), 2),
        (placed_phrase(&[(0, 0), (2, 1)]), 3),
        (placed_phrase(&[(0, 0), (1, 2)]), 2),
        (placed_phrase(&[(0, 1), (0, 1)]), 3),
        (constant_score(first(4)), 4),
        (boost(TWO, first(4)), 4),
    ]
}

/// A cheap Must, the pivot, and a leaf of the pivot's cost after or before it: both together show that
/// the pivot costs no more and no less.
fn costs() -> Vec<Node> {
    let mut trees = Vec::new();
    for (pivot, cost) in pivots() {
        let beside = if cost == N { match_all() } else { first(cost) };
        let [cheap, beside] = [at(X, 1), weighted(Y, beside)].map(Node::must);
        let pivot = weighted(Z, pivot).must();
        trees.push(boolean(0, [cheap.clone(), pivot.clone(), beside.clone()]));
        trees.push(boolean(0, [cheap, beside, pivot]));
    }
    trees
}

/// Sixteen levels.
fn deep() -> Node {
    let below = |node: Node, level: u32| match level % 3 {
        0 => boost(0x3f8c_cccd, node),
        1 => boolean(0, [node.must(), first(3).should()]),
        _ => boolean(1, [node.should(), term(A).should()]),
    };
    (0..15).fold(term(NORMED), below)
}
