//! The smallest case of each known difference from Lucene: the Rust gives document 01's side.
#![cfg_attr(not(oracle), allow(unused))]
#[macro_use]
mod common;

use common::*;
use harness::case::Case;
use harness::catalogue::Catalogue;
#[cfg(oracle)]
use harness::oracle;
use harness::query::*;

/// N documents, one plain field, a leaf for each run.
fn case_of(n: u32, runs: &[&[u32]], query: impl Fn(&[Node]) -> Node) -> Case {
    let mut catalogue = Catalogue::new(n);
    let field = catalogue.field();
    let leaves: Vec<_> = runs
        .iter()
        .map(|run| term(catalogue.leaf(field, run)))
        .collect();
    catalogue.case(10, 10, &query(&leaves))
}

fn at(bits: u32, leaf: &Node) -> Node {
    weighted(bits, leaf.clone())
}

#[test]
#[cfg_attr(not(oracle), ignore = "the Rust source is absent")]
fn row_1_must_scores_go_by_cost() {
    with_oracle!({
        let case = case_of(2, &[&[0], &[0, 1]], |l| {
            let clauses = [at(X, &l[0]), at(Z, &l[1]), at(Y, &l[0])];
            boolean(0, clauses.map(Node::must))
        });
        assert_eq!(list(&case), [(0, 0x3f80_0001)]);
    });
}

#[test]
#[cfg_attr(not(oracle), ignore = "the Rust source is absent")]
fn row_1b_a_group_costs_the_sum_of_its_clauses() {
    with_oracle!({
        let case = case_of(2, &[&[0], &[0, 1]], |l| {
            let group = boolean(2, [&l[0]; 3].map(|leaf| leaf.clone().should()));
            let clauses = [at(X, &l[0]), at(Z, &group), at(Y, &l[1])];
            boolean(0, clauses.map(Node::must))
        });
        assert_eq!(list(&case), [(0, 0x3f80_0001)]);
        assert_eq!(ask(&case).costs()[4..6], [Some(3); 2]);
    });
}

#[test]
#[cfg_attr(not(oracle), ignore = "the Rust source is absent")]
fn row_2_the_group_joins_before_narrowing() {
    with_oracle!({
        let case = case_of(2, &[&[0], &[1]], |l| {
            let musts = [at(ONE, &l[0]), at(HALF, &l[0])].map(Node::must);
            let shoulds = [at(HALF, &l[0]), at(ONE, &l[1])].map(Node::should);
            boolean(1, [musts, shoulds].concat())
        });
        assert_eq!(list(&case), [(0, 0x3f80_0001)]);
    });
}

#[test]
#[cfg_attr(not(oracle), ignore = "the Rust source is absent")]
fn row_3_a_group_of_all_shoulds_stays_a_group() {
    with_oracle!({
        let case = case_of(1, &[&[0]], |l| {
            let must = at(HALF, &l[0]).must();
            let shoulds = [at(ONE, &l[0]), at(HALF, &l[0])].map(Node::should);
            boolean(2, [&[must], &shoulds[..]].concat())
        });
        assert_eq!(list(&case), [(0, ONE)]);
    });
}

#[test]
#[cfg_attr(not(oracle), ignore = "the Rust source is absent")]
fn row_4_should_scores_go_in_clause_order() {
    with_oracle!({
        let case = case_of(2, &[&[1], &[0, 1], &[1]], |l| {
            let clauses = [at(X, &l[0]), at(Y, &l[1]), at(Z, &l[2])];
            boolean(0, clauses.map(Node::should))
        });
        assert_eq!(list(&case), [(0, Y), (1, 0x3f80_0001)]);
        assert_eq!(pairs(&ask(&case).list_from(1)), [(1, 0x3f80_0001)]);
    });
}

/// One document; leaves given as (idf, positions, offset), and the phrase of them.
fn phrase_case(average: f32, terms: &[(u32, &[u32], u32)]) -> Case {
    let mut catalogue = Catalogue::new(1);
    let field = catalogue.field_with(average, None, true);
    let mut leaves = Vec::new();
    for (idf, positions, offset) in terms {
        let run = [(0, *positions)];
        let leaf = catalogue.leaf_of_positions(field, f32::from_bits(*idf), &run);
        leaves.push((leaf, *offset));
    }
    catalogue.case(1, 10, &phrase(field, &leaves))
}

#[test]
#[cfg_attr(not(oracle), ignore = "the Rust source is absent")]
fn row_5_a_repeated_position_counts_once() {
    with_oracle!({
        let case = phrase_case(1.0, &[(ONE, &[0, 0], 0), (ONE, &[1], 1)]);
        let score = |frequency| oracle::bm25(ONE, 2f32.to_bits(), ONE, frequency, 1);
        assert_eq!(list(&case), [(0, score(1))]);
        assert_ne!(score(1), score(2));
    });
}

#[test]
#[cfg_attr(not(oracle), ignore = "the Rust source is absent")]
fn row_6_phrase_idf_is_added_in_record_order() {
    with_oracle!({
        let terms: [(u32, &[u32], u32); 3] = [(X, &[0], 0), (Y, &[2], 2), (Z, &[1], 1)];
        let case = phrase_case(16_777_216.0, &terms);
        assert_eq!(list(&case), [(0, 0x3f44_ec50)]);
        let by_offset = phrase_case(16_777_216.0, &[terms[0], terms[2], terms[1]]);
        assert_eq!(list(&by_offset), [(0, 0x3f44_ec4e)]);
    });
}

#[test]
#[cfg_attr(not(oracle), ignore = "the Rust source is absent")]
fn row_7_the_mark_stands_above_t() {
    with_oracle!({
        let case = Catalogue::new(1).case(1, 0, &match_all());
        assert_eq!(ask(&case).search().text(), "count 1+\n0 3f800000\n");
    });
}

#[test]
#[cfg_attr(not(oracle), ignore = "the Rust source is absent")]
fn row_8_nan_and_excluded_infinite_ends() {
    with_oracle!({
        let end = f64::NEG_INFINITY.to_bits();
        for (value, kinds, listed) in [
            (0xfff8 << 48, 3, vec![]),
            (0xfff8 << 48, 6, vec![]),
            (end, 3, vec![0]),
            (end, 6, vec![]),
        ] {
            let mut catalogue = Catalogue::new(1);
            let column = catalogue.column_of_f64(&[Some(value)]);
            let case = catalogue.case(1, 1, &range(column, kinds, 0, end));
            assert_eq!(documents(&case), listed);
        }
    });
}

#[test]
#[cfg_attr(not(oracle), ignore = "the Rust source is absent")]
fn rows_9_and_10_large_positions_and_offsets() {
    with_oracle!({
        let most = 2_147_483_647;
        let large = phrase_case(1.0, &[(ONE, &[2_147_483_520], 0), (ONE, &[most], 127)]);
        assert_eq!(documents(&large), [0]);
        let far = phrase_case(1.0, &[(ONE, &[1], 0), (ONE, &[0], most)]);
        assert_eq!(ask(&far).search().text(), "count 0\n");
    });
}

#[test]
#[cfg_attr(not(oracle), ignore = "the Rust source is absent")]
fn row_11_a_norm_of_0_is_accepted() {
    with_oracle!({
        let mut catalogue = Catalogue::new(2);
        let field = catalogue.field_with(1.0, Some(&[0, 1]), false);
        let leaf = catalogue.leaf(field, &[0, 1]);
        let scores = [0, 1].map(|byte| oracle::bm25(ONE, ONE, ONE, 1, byte));
        let case = catalogue.case(2, 2, &term(leaf));
        assert_eq!(list(&case), [(0, scores[0]), (1, scores[1])]);
        assert!(scores[0] > scores[1]);
    });
}

#[test]
#[cfg_attr(not(oracle), ignore = "the Rust source is absent")]
fn row_12_frequencies_above_an_int_in_sum() {
    with_oracle!({
        let mut catalogue = Catalogue::new(1);
        let field = catalogue.field();
        let mut shoulds = Vec::new();
        for _ in 0..128 {
            let leaf = catalogue.leaf_of_frequencies(field, 1.0, &[(0, 16_777_216)]);
            shoulds.push(term(leaf).should());
        }
        let groups = shoulds.chunks(64).map(|half| boolean(0, half).should());
        let case = catalogue.case(1, 1, &boolean(0, groups.collect::<Vec<_>>()));
        assert_eq!(documents(&case), [0]);
    });
}

#[test]
#[cfg_attr(not(oracle), ignore = "the Rust source is absent")]
fn row_13_a_phrase_of_one_term() {
    with_oracle!({
        let case = phrase_case(1.0, &[(ONE, &[3], 5)]);
        assert_eq!(list(&case), [(0, oracle::bm25(ONE, ONE, ONE, 1, 1))]);
    });
}

#[test]
#[cfg_attr(not(oracle), ignore = "the Rust source is absent")]
fn row_14_boosts_multiply_from_the_outside_in() {
    with_oracle!({
        let inner = boost(0x412f_c15e, boost(0x4175_b9f1, match_all()));
        let case = Catalogue::new(1).case(1, 1, &boost(0x417b_0134, inner));
        assert_eq!(list(&case), [(0, 0x4525_6900)]);
    });
}
