//! The examples of document 01 that the Rust can run.
#![cfg_attr(not(oracle), allow(unused))]
#[macro_use]
mod common;

use common::*;
use harness::answer::NO_MORE_DOCS;
use harness::case::Case;
use harness::catalogue::Catalogue;
#[cfg(oracle)]
use harness::oracle;
use harness::query::*;
use harness::refusal::refusal;

/// A is {1,4,6}, B {4,6}, C {1,7}.
fn abc(query: impl Fn([Node; 3]) -> Node) -> Case {
    let mut catalogue = Catalogue::new(8);
    let field = catalogue.field();
    let runs: [&[u32]; 3] = [&[1, 4, 6], &[4, 6], &[1, 7]];
    let leaves = runs.map(|run| term(catalogue.leaf(field, run)));
    catalogue.case(10, 10, &query(leaves))
}

/// One document, and a phrase of leaves with idf 1 given as positions and offset.
fn phrase_case(terms: &[(&[u32], u32)]) -> Case {
    let mut catalogue = Catalogue::new(1);
    let field = catalogue.field_with_positions();
    let mut leaves = Vec::new();
    for (positions, offset) in terms {
        let leaf = catalogue.leaf_of_positions(field, 1.0, &[(0, positions)]);
        leaves.push((leaf, *offset));
    }
    catalogue.case(1, 10, &phrase(field, &leaves))
}

/// The score of a phrase of so many leaves with idf 1 and a frequency, worked out here.
fn phrase_score(leaves: u32, frequency: u32) -> u32 {
    let inverse = 1.0 / (1.2f32 * ((1.0f32 - 0.75) + 0.75f32 * 1.0 / 1.0));
    let weight = leaves as f32;
    (weight - weight / (1.0 + frequency as f32 * inverse)).to_bits()
}

#[test]
#[cfg_attr(not(oracle), ignore = "the Rust source is absent")]
fn norm_bytes_decode() {
    with_oracle!({
        let decoded = [0, 23, 24, 41, 255].map(oracle::length);
        assert_eq!(decoded, [0, 23, 24, 42, 2_013_265_944]);
        assert_eq!(oracle::length(224), 134_217_752);
        assert_eq!(oracle::length(224) as f32, 134_217_760.0);
        for byte in 0..=255 {
            let length = oracle::length(byte);
            let exact = length as f32 as u64 == u64::from(length);
            assert!(exact || byte > 223, "{byte}");
            assert_eq!(oracle::int_to_byte4(length), byte);
        }
    });
}

/// The inverse is 1 ÷ (K1 × ((1 − B) + (B × L) ÷ average)), the length rounded to the nearest f32.
#[test]
#[cfg_attr(not(oracle), ignore = "the Rust source is absent")]
fn inverses_follow_the_formula() {
    with_oracle!({
        for average in [1.0f32, 3.7, 16_777_216.0] {
            let inverses = oracle::inverses(average.to_bits());
            for (byte, bits) in (0..=255).zip(inverses) {
                let length = oracle::length(byte) as f32;
                let inverse = 1.0 / (1.2f32 * ((1.0f32 - 0.75) + (0.75f32 * length) / average));
                assert_eq!(bits, inverse.to_bits(), "{byte} {average}");
            }
        }
    });
}

#[test]
#[cfg_attr(not(oracle), ignore = "the Rust source is absent")]
fn next_up_goes_one_pattern_up() {
    with_oracle!({
        let given = [
            0,
            1,
            ONE,
            0x7f7f_ffff,
            0x7f80_0000,
            0xff80_0000,
            0x8000_0000,
        ];
        let next = [1, 2, ONE + 1, 0x7f80_0000, 0x7f80_0000, 0xff7f_ffff, 1];
        assert_eq!(given.map(oracle::next_up), next);
    });
}

#[test]
#[cfg_attr(not(oracle), ignore = "the Rust source is absent")]
fn a_boolean_without_clauses_or_of_must_not_only_takes_none() {
    with_oracle!({
        assert_eq!(documents(&abc(|_| boolean(0, []))), []);
        assert_eq!(documents(&abc(|[a, ..]| boolean(0, [a.must_not()]))), []);
    });
}

#[test]
#[cfg_attr(not(oracle), ignore = "the Rust source is absent")]
fn minimum_should_match_alone() {
    with_oracle!({
        let of = |msm| abc(|leaves| boolean(msm, leaves.map(Node::should)));
        assert_eq!(documents(&of(0)), [1, 4, 6, 7]);
        assert_eq!(documents(&of(2)), [1, 4, 6]);
        assert_eq!(documents(&of(4)), []);
        assert_eq!(documents(&of(u32::MAX)), []);
    });
}

#[test]
#[cfg_attr(not(oracle), ignore = "the Rust source is absent")]
fn minimum_should_match_beside_a_must() {
    with_oracle!({
        let of = |msm| abc(|[a, b, _]| boolean(msm, [a.must(), b.should()]));
        assert_eq!(documents(&of(0)), [1, 4, 6]);
        assert_eq!(documents(&of(1)), [4, 6]);
    });
}

#[test]
#[cfg_attr(not(oracle), ignore = "the Rust source is absent")]
fn a_lone_filter_scores_nothing() {
    with_oracle!({
        let case = abc(|[a, ..]| boolean(0, [a.filter()]));
        assert_eq!(list(&case), [(1, 0), (4, 0), (6, 0)]);
    });
}

#[test]
#[cfg_attr(not(oracle), ignore = "the Rust source is absent")]
fn equal_positions_count_with_the_smaller_multiplicity() {
    with_oracle!({
        let case = phrase_case(&[(&[0, 5, 5], 0), (&[6, 6, 9], 1)]);
        assert_eq!(list(&case), [(0, phrase_score(2, 2))]);
        assert_ne!(phrase_score(2, 2), phrase_score(2, 3));
    });
}

#[test]
#[cfg_attr(not(oracle), ignore = "the Rust source is absent")]
fn a_start_may_lie_below_zero() {
    with_oracle!({
        let case = phrase_case(&[(&[0], 1)]);
        assert_eq!(list(&case), [(0, phrase_score(1, 1))]);
        let both = phrase_case(&[(&[0], 1), (&[6], 7)]);
        assert_eq!(list(&both), [(0, phrase_score(2, 1))]);
    });
}

#[test]
#[cfg_attr(not(oracle), ignore = "the Rust source is absent")]
fn ranges_of_whole_values() {
    with_oracle!({
        let mut catalogue = Catalogue::new(4);
        let values = [Some(17), Some(18), Some(18), None];
        let column = catalogue.column_of_i64(&values);
        for (kinds, lower, expected) in [(1 + 3 * 2, 18, vec![]), (2 + 3, 17, vec![1, 2])] {
            let query = range(column, kinds, lower, 18);
            let case = catalogue.case(4, 4, &query);
            assert_eq!(documents(&case), expected);
            assert_eq!(oracle::range(&case, query.values), expected);
        }
    });
}

#[test]
#[cfg_attr(not(oracle), ignore = "the Rust source is absent")]
fn picked_ties_go_to_the_lower_document() {
    with_oracle!({
        let scores = [1.0f32, 2.0, 1.0].map(f32::to_bits);
        let picked = oracle::pick(&[3, 5, 9], &scores, 2, 10);
        assert_eq!(pairs(&picked.hits), [(5, scores[1]), (3, scores[0])]);
        assert_eq!((picked.count, picked.mark), (3, false));
    });
}

#[test]
#[cfg_attr(not(oracle), ignore = "the Rust source is absent")]
fn picking_at_the_edges() {
    with_oracle!({
        let (infinity, last) = (0x7f80_0000, NO_MORE_DOCS - 1);
        let documents = [0, 7, last - 1, last];
        let scores = [0, infinity, 1, infinity];
        let picked = |k, t| oracle::pick(&documents, &scores, k, t);
        let all = [(7, infinity), (last, infinity), (last - 1, 1), (0, 0)];
        assert_eq!(pairs(&picked(1024, u32::MAX).hits), all);
        for k in 1..=4 {
            assert_eq!(pairs(&picked(k, 0).hits), all[..k as usize]);
        }
        let marks = [(4, 3), (4, 4), (5, 3), (1, 0)].map(|(k, t)| picked(k, t).mark);
        assert_eq!(marks, [true, false, false, true]);
        assert_eq!(pairs(&oracle::pick(&[], &[], 1, 0).hits), []);
    });
}

#[test]
#[cfg_attr(not(oracle), ignore = "the Rust source is absent")]
fn pages_of_match_all() {
    with_oracle!({
        let case = Catalogue::new(3).case(1, 0, &match_all());
        let page = ask(&case).page(0, 2);
        assert_eq!(
            (pairs(&page.hits), page.next),
            (vec![(0, ONE), (1, ONE)], 2)
        );
        let rest = ask(&case).page(2, 2);
        assert_eq!(
            (pairs(&rest.hits), rest.next),
            (vec![(2, ONE)], NO_MORE_DOCS)
        );
        let end = ask(&case).page(3, 2);
        assert_eq!((pairs(&end.hits), end.next), (vec![], NO_MORE_DOCS));
    });
}

#[test]
fn k_from_1_to_1024() {
    let catalogue = Catalogue::new(3);
    for (k, number) in [(0, 11), (1, 0), (1024, 0), (1025, 11)] {
        assert_eq!(refusal(&catalogue.case(k, 0, &match_all())), number);
    }
}

#[test]
#[cfg_attr(not(oracle), ignore = "the Rust source is absent")]
fn k_at_its_limits_is_answered() {
    with_oracle!({
        let catalogue = Catalogue::new(3);
        for (k, held) in [(1, 1), (1024, 3)] {
            let searched = ask(&catalogue.case(k, 5, &match_all())).search();
            assert_eq!((searched.hits.len(), searched.count), (held, 3));
        }
    });
}
