//! Document 01's refusals of a case, written from its text: the generator's cases are checked
//! against them, and a refused folder is told by its number. The Rust has none of them.
pub mod calls;

use crate::case::Case;
use crate::query::*;
use calls::{needed, wrong_k};

const ONE: u32 = 0x3f80_0000;
const MOST_AVERAGE: u32 = 0x4b80_0000;
const MOST_IDF: u32 = 0x4280_0000;
const MOST_BOOST: u32 = 0x4780_0000;
const MOST_FREQUENCY: u32 = 16_777_216;
const MOST_POSITION: u32 = 2_147_483_647;

/// Words of the range buffer of the program `hits`.
const RANGE_BUFFER: usize = 16_384;

/// The number with which the program `hits` refuses a case: the lowest that holds, 0 for none.
pub fn refusal(case: &Case) -> u32 {
    match order(case) {
        0 if wrong_k(case.k) => 11,
        0 if needed(case, &root(case)).ranges > RANGE_BUFFER => 12,
        number => number,
    }
}

/// The lowest of 1 to 10, those of an index and a query, or 0. No condition has to make sense
/// where a lower one holds.
pub fn order(case: &Case) -> u32 {
    let conditions: [fn(&Case) -> bool; 10] = [
        |case| too_many_documents(case.n),
        |case| wrong_fields(&case.fields),
        wrong_norms_or_live,
        wrong_leaves,
        wrong_postings,
        wrong_columns,
        |case| tree(case).is_none(),
        |case| any_node(case, wrong_values),
        |case| boost_above(&root(case), 1.0),
        |case| any_node(case, phrase_without_positions),
    ];
    let lowest = conditions.iter().position(|holds| holds(case));
    lowest.map_or(0, |index| index as u32 + 1)
}

pub fn too_many_documents(n: u32) -> bool {
    n > 1_048_576
}

pub fn wrong_fields(fields: &[u32]) -> bool {
    let wrong = |f: &[u32]| !(ONE..=MOST_AVERAGE).contains(&f[0]) || f[1] > 1 || f[2] > 1;
    let whole = fields.len().is_multiple_of(3) && fields.len() <= 3 * 16;
    !whole || fields.chunks(3).any(wrong)
}

fn wrong_norms_or_live(case: &Case) -> bool {
    let with_norms = case.fields.chunks(3).filter(|f| f[1] == 1).count();
    let live = [0, case.n.div_ceil(64) as usize];
    case.norms.len() != with_norms * case.n as usize || !live.contains(&case.live.len())
}

fn wrong_leaves(case: &Case) -> bool {
    let fields = case.fields.len() / 3;
    let postings = (case.postings.len() / 3) as u64;
    let wrong = |l: &[u32]| {
        l[0] as usize >= fields || u64::from(l[1]) + u64::from(l[2]) > postings || l[3] > MOST_IDF
    };
    let whole = case.leaves.len().is_multiple_of(4) && case.leaves.len() <= 4 * 512;
    !whole || case.leaves.chunks(4).any(wrong)
}

fn wrong_postings(case: &Case) -> bool {
    !case.postings.len().is_multiple_of(3) || case.leaves.chunks(4).any(|l| wrong_run(case, l))
}

fn wrong_run(case: &Case, leaf: &[u32]) -> bool {
    let run = &case.postings[3 * leaf[1] as usize..][..3 * leaf[2] as usize];
    let positions = case.fields[3 * leaf[0] as usize + 2] == 1;
    let mut least = 0;
    for p in run.chunks(3) {
        let [document, frequency, first] = [p[0], p[1], p[2]];
        let wrong = match positions {
            true => wrong_positions(case, first, frequency),
            false => first != 0,
        };
        let outside = !(1..=MOST_FREQUENCY).contains(&frequency);
        if document >= case.n || document < least || outside || wrong {
            return true;
        }
        least = document + 1;
    }
    false
}

fn wrong_positions(case: &Case, first: u32, frequency: u32) -> bool {
    let (first, number) = (first as usize, frequency as usize);
    match case.positions.get(first..first + number) {
        Some(own) => !own.is_sorted() || own.iter().any(|p| *p > MOST_POSITION),
        None => true,
    }
}

fn wrong_columns(case: &Case) -> bool {
    let values = 3 * case.columns.len() * case.n as usize;
    case.columns.len() > 8
        || case.columns.iter().any(|kind| *kind > 1)
        || case.values.len() != values
        || case.values.chunks(3).any(|v| v[0] > 1)
}

/// The query's tree, where 7 does not hold.
fn tree(case: &Case) -> Option<Node> {
    let root = Node::decode(&case.query)?;
    let records = case.query.len() / RECORD;
    let sound = root.occurrence == 0 && records <= 256 && root.depth() <= 16;
    (sound && root.kind != PHRASE_TERM && children_in_place(&root)).then_some(root)
}

fn root(case: &Case) -> Node {
    tree(case).expect("7 is looked at before")
}

/// Kinds known, child counts right, and each child where it may stand.
fn children_in_place(node: &Node) -> bool {
    let counts = match node.kind {
        TERM | RANGE | MATCH_ALL | MATCH_NONE | PHRASE_TERM => 0..=0,
        PHRASE => 1..=32,
        BOOLEAN => 0..=64,
        CONSTANT_SCORE | BOOST => 1..=1,
        _ => return false,
    };
    let in_place = |child: &Node| {
        let occurrences = if node.kind == BOOLEAN { 1..=4 } else { 0..=0 };
        occurrences.contains(&child.occurrence)
            && (child.kind == PHRASE_TERM) == (node.kind == PHRASE)
            && children_in_place(child)
    };
    counts.contains(&node.children.len()) && node.children.iter().all(in_place)
}

fn any_node(case: &Case, wrong: fn(&Case, &Node) -> bool) -> bool {
    root(case).all().into_iter().any(|node| wrong(case, node))
}

/// 8 for one node; a phrase answers for the leaves of its terms.
fn wrong_values(case: &Case, node: &Node) -> bool {
    let [first, second, ends @ ..] = node.values;
    let leaf_field = |leaf: u32| case.leaves.get(4 * leaf as usize);
    let other_field = |term: &Node| leaf_field(term.values[0]).is_some_and(|field| *field != first);
    let (used, wrong) = match node.kind {
        TERM => (1, leaf_field(first).is_none()),
        PHRASE_TERM => (2, leaf_field(first).is_none() || second > MOST_POSITION),
        PHRASE => {
            let absent = first as usize >= case.fields.len() / 3;
            (1, absent || node.children.iter().any(other_field))
        }
        BOOLEAN => (1, false),
        BOOST => (1, first > MOST_BOOST),
        RANGE => {
            let loose = |kind, end: &[u32]| kind == 0 && end != [0, 0];
            let ends = loose(second % 3, &ends[..2]) || loose(second / 3, &ends[2..]);
            let absent = first as usize >= case.columns.len();
            (6, absent || second > 8 || ends)
        }
        _ => (0, false),
    };
    wrong || node.values[used..].iter().any(|value| *value != 0)
}

/// 9: whether a boost carried down to a node, each product rounded, is above the most.
fn boost_above(node: &Node, reaching: f32) -> bool {
    let passed = |child: &Node| match (node.kind, child.occurrence) {
        (BOOST, _) => reaching * f32::from_bits(node.values[0]),
        (CONSTANT_SCORE, _) | (BOOLEAN, MUST_NOT | FILTER) => 0.0,
        _ => reaching,
    };
    let below = |child: &Node| boost_above(child, passed(child));
    reaching > f32::from_bits(MOST_BOOST) || node.children.iter().any(below)
}

fn phrase_without_positions(case: &Case, node: &Node) -> bool {
    node.kind == PHRASE && case.fields[3 * node.values[0] as usize + 2] == 0
}
