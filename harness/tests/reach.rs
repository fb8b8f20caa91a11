//! What the generator reaches: every kind, occurrence and boundary that it claims, never refused.
mod common;

use common::reach::Reach;
use common::{Seed, plain};
use harness::case::{Case, FILE_LIMIT};
use harness::failed::{asks_failed_value, ends, failed, has_failed_end};
use harness::generate;
use harness::query::*;
use harness::refusal::refusal;

const CASES: u64 = 20_000;
const MOST: u32 = 2_147_483_647;

fn run(case: &Case, reach: &mut Reach) {
    for n in [0, 1, 2, 31, 32, 33, 40, 63, 64, 65] {
        reach.note(format!("N {n}"), case.n == n);
    }
    reach.note("k 1", case.k == 1);
    reach.note("k 1024", case.k == 1024);
    reach.note("t 0", case.t == 0);
    reach.note("t at the most", case.t == u32::MAX);
    let words = case.n.div_ceil(64) as usize;
    reach.note("no live words", case.live.is_empty() && words > 0);
    reach.note("two live words", case.live.len() == 2);
    let dead = (0..case.n).filter(|d| !case.is_live(*d)).count() as u32;
    reach.note("some dead", dead > 0 && dead < case.n);
    reach.note("all dead", dead > 0 && dead == case.n);
    let beyond =
        !case.n.is_multiple_of(64) && case.live.last().is_some_and(|w| w >> (case.n % 64) > 0);
    reach.note("live bits from N on", beyond);
}

fn fields(case: &Case, reach: &mut Reach) {
    for number in [0, 1, 16] {
        reach.note(format!("{number} fields"), case.fields.len() == 3 * number);
    }
    for [norms, positions] in [[0, 0], [0, 1], [1, 0], [1, 1]] {
        let name = format!("field with norms {norms}, positions {positions}");
        let has = case.fields.chunks(3).any(|f| f[1..] == [norms, positions]);
        reach.note(name, has);
    }
    for average in [1.0f32, 16_777_216.0] {
        let has = case.fields.chunks(3).any(|f| f[0] == average.to_bits());
        reach.note(format!("average {average}"), has);
    }
    for byte in 0..=255 {
        reach.note(format!("norm byte {byte}"), case.norms.contains(&byte));
    }
}

fn leaves(case: &Case, reach: &mut Reach) {
    let leaves: Vec<_> = case.leaves.chunks(4).collect();
    let count = (case.postings.len() / 3) as u32;
    for number in [0, 4, 512] {
        reach.note(format!("{number} leaves"), leaves.len() == number);
    }
    let any = |test: &dyn Fn(&[u32]) -> bool| leaves.iter().any(|leaf| test(leaf));
    reach.note("empty leaf", any(&|l| l[2] == 0));
    reach.note(
        "empty leaf that begins at the count",
        any(&|l| l[2] == 0 && l[1] == count),
    );
    reach.note(
        "leaf of all documents",
        any(&|l| l[2] == case.n && case.n > 1),
    );
    reach.note("idf 0", any(&|l| l[3] == 0));
    reach.note("idf 64", any(&|l| l[3] == 64f32.to_bits()));
    let begun_before = |i: usize| leaves[..i].iter().any(|l| l[2] > 0 && l[1] == leaves[i][1]);
    let shared = (0..leaves.len()).any(|i| leaves[i][2] > 0 && begun_before(i));
    reach.note("shared run", shared);
    let held: u32 = leaves.iter().map(|l| l[2]).sum();
    reach.note("postings in no run", held < count);
    let numbers = 0..leaves.len() as u32;
    let postings = numbers.flat_map(|leaf| plain::postings(case, leaf));
    let frequencies: Vec<_> = postings.map(|p| p[1]).collect();
    for frequency in [1, 16_777_216] {
        let has = frequencies.contains(&frequency);
        reach.note(format!("frequency {frequency}"), has);
    }
    for position in [0, MOST] {
        let has = case.positions.contains(&position);
        reach.note(format!("position {position}"), has);
    }
}

fn columns(case: &Case, reach: &mut Reach) {
    for number in [0, 1, 8] {
        reach.note(format!("{number} columns"), case.columns.len() == number);
    }
    let edges = [
        ("minus zero", 0x8000 << 48),
        ("infinity", 0x7ff0 << 48),
        ("minus infinity", 0xfff0 << 48),
        ("NaN", 0x7ff8 << 48),
        ("minus NaN", 0xfff8 << 48),
        ("signalling NaN", (0x7ff0 << 48) + 1),
        ("minus signalling NaN", (0xfff0 << 48) + 1),
    ];
    let mut values = case.values.chunks(3);
    reach.note(
        "absent value with bits",
        values.any(|v| v[0] == 0 && v[1] > 0),
    );
    for (column, kind) in (0..).zip(&case.columns) {
        let present = (0..case.n).filter_map(|d| plain::value(case, column, d));
        let present: Vec<_> = present.collect();
        reach.note("absent value", present.len() < case.n as usize);
        for (name, bits) in edges {
            reach.note(name, *kind == 1 && present.contains(&bits));
        }
        for bits in [i64::MIN, i64::MAX, 0, -1] {
            let has = *kind == 0 && present.contains(&(bits as u64));
            reach.note(format!("i64 {bits}"), has);
        }
    }
}

fn query(case: &Case, root: &Node, reach: &mut Reach) {
    let nodes = root.all();
    reach.note("depth 16", root.depth() == 16);
    reach.note("depth 1", root.depth() == 1);
    reach.note("256 records", nodes.len() == 256);
    for node in nodes {
        reach.note(format!("kind {}", node.kind), true);
        for occurrence in 0..if node.kind == PHRASE_TERM { 1 } else { 5 } {
            let name = format!("occurrence {occurrence} of kind {}", node.kind);
            reach.note(name, node.occurrence == occurrence);
        }
        match node.kind {
            BOOLEAN => boolean_node(case, node, reach),
            PHRASE => phrase_node(case, node, reach),
            RANGE => range_node(case, node, reach),
            BOOST => {
                for factor in [0.0f32, 1.0, 65_536.0] {
                    let has = node.values[0] == factor.to_bits();
                    reach.note(format!("boost {factor}"), has);
                }
            }
            _ => {}
        }
    }
}

/// How many postings a term has; a clause that is not a term counts as many.
fn postings(case: &Case, node: &Node) -> u32 {
    match node.kind {
        TERM => case.leaves[4 * node.values[0] as usize + 2],
        _ => u32::MAX,
    }
}

/// The clauses of an occurrence.
fn of(node: &Node, occurrence: u32) -> impl Iterator<Item = &Node> {
    let clauses = node.children.iter();
    clauses.filter(move |clause| clause.occurrence == occurrence)
}

fn boolean_node(case: &Case, node: &Node, reach: &mut Reach) {
    let count = |occurrence| of(node, occurrence).count();
    let [musts, nots, filters] = [MUST, MUST_NOT, FILTER].map(count);
    let number = node.children.len();
    reach.note("Boolean without clauses", number == 0);
    reach.note("Boolean of 64 clauses", number == 64);
    reach.note("MustNot only", nots > 0 && nots == number);
    reach.note("Filter only", filters > 0 && filters == number);
    reach.note("a lone Filter", filters == 1 && number == 1);
    reach.note("three Musts or more", musts > 2);
    let cheapest = |o| of(node, o).map(|clause| postings(case, clause)).min();
    let cheap_filter = cheapest(FILTER).is_some_and(|f| cheapest(MUST).is_some_and(|m| f < m));
    reach.note("a Filter is cheapest", cheap_filter && musts > 1);
    for (occurrence, name) in [(MUST, "Must"), (SHOULD, "Should"), (MUST_NOT, "MustNot")] {
        let none = |c: &Node| c.kind == MATCH_NONE || postings(case, c) == 0;
        let has = of(node, occurrence).any(none);
        reach.note(format!("{name} without a scorer"), has);
        let nested = |c: &Node| c.kind == BOOLEAN && !c.children.is_empty();
        let has = of(node, occurrence).any(nested);
        reach.note(format!("Boolean nested as {name}"), has);
    }
    minimum_should_match(node, musts + filters > 0, reach);
}

fn minimum_should_match(node: &Node, required: bool, reach: &mut Reach) {
    let (msm, count) = (node.values[0], of(node, SHOULD).count() as u32);
    for (beside, name) in [(required, "beside"), (!required, "alone")] {
        reach.note(format!("msm 0 {name}"), beside && msm == 0 && count > 0);
        reach.note(format!("msm 1 {name}"), beside && msm == 1 && count > 1);
        let between = msm > 1 && msm < count;
        reach.note(format!("msm between {name}"), beside && between);
        let all = msm == count && count > 1;
        reach.note(format!("msm all {name}"), beside && all);
        let above = msm == count + 1 && count > 0;
        reach.note(format!("msm above {name}"), beside && above);
        reach.note(format!("msm at the most {name}"), beside && msm == u32::MAX);
    }
}

fn phrase_node(case: &Case, node: &Node, reach: &mut Reach) {
    let terms: Vec<_> = node
        .children
        .iter()
        .map(|t| (t.values[0], t.values[1]))
        .collect();
    reach.note("phrase of 1", terms.len() == 1);
    reach.note("phrase of 32", terms.len() == 32);
    let pairs = || terms.windows(2);
    reach.note(
        "a term repeated",
        pairs().any(|p| p[0].0 == p[1].0 && p[0].1 != p[1].1),
    );
    reach.note("an equal PhraseTerm", pairs().any(|p| p[0] == p[1]));
    reach.note("a gap", pairs().any(|p| p[1].1 > p[0].1 + 1));
    reach.note("falling offsets", pairs().any(|p| p[1].1 < p[0].1));
    reach.note("offset at the most", terms.iter().any(|t| t.1 == MOST));
    let empty = |leaf: u32| case.leaves[4 * leaf as usize + 2] == 0;
    reach.note(
        "an empty leaf in a phrase",
        terms.iter().any(|t| empty(t.0)),
    );
    for document in 0..case.n {
        let starts = plain::starts(case, node, document);
        reach.note("a phrase that stands", !starts.is_empty());
        reach.note("a start below 0", starts.first().is_some_and(|s| *s < 0));
        reach.note("a repeated start", starts.windows(2).any(|s| s[0] == s[1]));
    }
}

fn range_node(case: &Case, node: &Node, reach: &mut Reach) {
    let [column, kinds, a, b, c, d] = node.values;
    let float = case.columns[column as usize] == 1;
    for of_float in [false, true] {
        for wanted in 0..9 {
            let name = format!("range kinds {wanted}, f64 {of_float}");
            reach.note(name, float == of_float && kinds == wanted);
        }
    }
    let [lower, upper] = [[a, b], [c, d]].map(|[low, high]| u64::from(low) | u64::from(high) << 32);
    let both = kinds % 3 > 0 && kinds / 3 > 0;
    reach.note("equal ends", both && lower == upper);
    let held = |document: u32| plain::in_range(case, node.values, document);
    let ordered = |document: u32| plain::between(case, node.values, document);
    let left_out = (0..case.n).filter(|d| ordered(*d) && !held(*d)).count();
    reach.note("NaN between the ends", left_out > 0);
    let lists = (0..case.n).any(held);
    reach.note(
        "NaN between the ends beside a number",
        left_out > 0 && lists,
    );
    for (name, kinds) in [("both", 0), ("the upper", 1), ("the lower", 3)] {
        let unbounded = node.values[1] == kinds && left_out > 0;
        reach.note(format!("NaN in a range, {name} unbounded"), unbounded);
    }
    let crossed = lower as i64 > upper as i64;
    reach.note("crossed ends", both && !float && crossed);
    whole_words(case, node, reach);
}

/// Ranges of whole words of 32 documents that list some of these and not all, by where the ends lie.
fn whole_words(case: &Case, node: &Node, reach: &mut Reach) {
    let float = case.columns[node.values[0] as usize] == 1;
    let sides = ends(node.values).map(|(end, bits)| match (end, bits >> 63) {
        (0, _) => "open",
        (_, 0) => "0 or above",
        _ => "below 0",
    });
    let mut documents = 0..case.n / 32 * 32;
    let held = |document| plain::in_range(case, node.values, document);
    let parts = documents.clone().any(held) && !documents.all(held);
    for lower in ["open", "0 or above", "below 0"] {
        for upper in ["open", "0 or above", "below 0"] {
            let name = format!("whole words, {lower} to {upper}, f64 {float}");
            if [lower, upper] != ["0 or above", "below 0"] {
                reach.note(name, sides == [lower, upper] && parts);
            }
        }
    }
}

#[test]
fn the_generator_reaches_what_it_claims() {
    let mut reach = Reach::default();
    for seed in 0..CASES {
        let _seed = Seed(seed);
        let case = generate::case(seed);
        assert_eq!(refusal(&case), 0);
        let lists = [&case.leaves, &case.postings, &case.positions, &case.values];
        assert!(lists.iter().all(|list| 4 * list.len() <= FILE_LIMIT));
        run(&case, &mut reach);
        fields(&case, &mut reach);
        leaves(&case, &mut reach);
        columns(&case, &mut reach);
        query(&case, &Node::decode(&case.query).unwrap(), &mut reach);
    }
    reach.each_at_least(3);
}

/// NaN values in half of the cases with documents and f64 columns or more, and never a NaN end.
#[test]
fn failed_readings_are_frequent() {
    let (mut of_f64, mut with, mut asked) = (0, 0, 0);
    for seed in 0..CASES {
        let _seed = Seed(seed);
        let case = generate::case(seed);
        assert!(!has_failed_end(&case));
        let columns = (0..).zip(&case.columns).filter(|(_, kind)| **kind == 1);
        let columns: Vec<u32> = columns.map(|(column, _)| column).collect();
        let mut values = columns.iter().flat_map(|column| {
            let of_column = |document| plain::value(&case, *column, document);
            (0..case.n).filter_map(of_column)
        });
        of_f64 += u64::from(case.n > 0 && !columns.is_empty());
        with += u64::from(values.any(|bits| failed(1, bits)));
        asked += u64::from(asks_failed_value(&case));
    }
    println!(
        "{CASES} cases, {of_f64} with f64 columns, {with} with NaN values, {asked} ask for them"
    );
    assert!(2 * with > of_f64 && 20 * asked > CASES);
}

#[test]
fn a_seed_always_gives_the_same_case() {
    assert_eq!(generate::case(5), generate::case(5));
    assert_ne!(generate::case(5), generate::case(6));
}
