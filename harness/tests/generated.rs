//! Thousands of generated cases through the Rust: nothing panics, overflows or steps past an end,
//! and its answers hang together as document 01 says.
#![cfg_attr(not(oracle), allow(unused))]
#[macro_use]
mod common;

use common::*;
use harness::answer::{Hit, NO_MORE_DOCS};
use harness::case::Case;
use harness::failed::{failed_end, listed};
use harness::generate;
#[cfg(oracle)]
use harness::oracle::{self, Oracle};
use harness::random::Random;

const CASES: u64 = 8000;

/// The list begun at any target is the rest of the full list.
#[cfg(oracle)]
fn begun_anywhere(case: &Case, oracle: &Oracle, list: &[Hit]) {
    for target in 0..=case.n {
        let before = list.iter().filter(|hit| hit.document < target).count();
        assert_eq!(oracle.list_from(target), list[before..]);
    }
}

/// Pages that follow one another give the full list.
#[cfg(oracle)]
fn pages_joined(oracle: &Oracle, list: &[Hit], m: usize) {
    let mut joined = Vec::new();
    let mut target = 0;
    while target != NO_MORE_DOCS {
        let page = oracle.page(target, m);
        assert!(page.hits.len() == m || page.next == NO_MORE_DOCS);
        joined.extend(page.hits);
        target = page.next;
    }
    assert_eq!(joined, list);
}

/// Hits, count and mark by document 01's rules; whether k cuts between equal scores.
#[cfg(oracle)]
fn best_of(case: &Case, oracle: &Oracle, list: &[Hit]) -> bool {
    let rust_s = |hit: &Hit| oracle::private::code(hit.document, hit.bits);
    assert!(list.iter().all(|hit| hit.code() == rust_s(hit)));
    let mut sorted = list.to_vec();
    sorted.sort_by_key(|hit| std::cmp::Reverse(hit.code()));
    let (count, k) = (list.len() as u64, case.k as usize);
    let searched = oracle.search();
    assert_eq!(searched.hits, sorted[..k.min(sorted.len())]);
    assert_eq!(searched.count, count);
    assert_eq!(searched.mark, count > case.t.into() && count >= k as u64);
    let documents: Vec<_> = list.iter().map(|hit| hit.document).collect();
    let bits: Vec<_> = list.iter().map(|hit| hit.bits).collect();
    assert_eq!(oracle::pick(&documents, &bits, case.k, case.t), searched);
    k < sorted.len() && sorted[k - 1].bits == sorted[k].bits
}

#[test]
#[cfg_attr(not(oracle), ignore = "the Rust source is absent")]
fn answers_hang_together() {
    with_oracle!({
        let (mut matching, mut listed, mut marked, mut ties) = (0, 0, 0, 0);
        for seed in 0..CASES {
            let _seed = Seed(seed);
            let case = generate::case(seed);
            let oracle = ask(&case);
            let list = oracle.list();
            begun_anywhere(&case, &oracle, &list);
            pages_joined(&oracle, &list, 1 + seed as usize % 5);
            ties += u64::from(best_of(&case, &oracle, &list));
            matching += u64::from(!list.is_empty());
            marked += u64::from(oracle.search().mark);
            listed += list.len();
            assert!(oracle.cost().is_some() || list.is_empty());
        }
        println!("{CASES} cases, {matching} match, {listed} documents listed");
        println!("{marked} marked, {ties} cut between equal scores");
        assert!(2 * matching > CASES && 10 * marked > CASES && 10 * ties > CASES);
    });
}

/// An end for a range: mostly a value of the column, its two halves apart.
fn end(case: &Case, column: u32, random: &mut Random) -> [u32; 2] {
    let document = random.below(case.n.max(1));
    let at = 3 * (column * case.n + document) as usize;
    match case.values.get(at + 1..at + 3) {
        Some(&[low, high]) => [low, high],
        _ => [1, 2],
    }
}

#[test]
#[cfg_attr(not(oracle), ignore = "the Rust source is absent")]
fn ranges_list_what_lies_in_them() {
    with_oracle!({
        let mut random = Random::new(1);
        for seed in 0..CASES {
            let _seed = Seed(seed);
            let case = generate::case(seed);
            for column in 0..case.columns.len() as u32 {
                let [a, b] = end(&case, column, &mut random);
                let [c, d] = end(&case, column, &mut random);
                for kinds in 0..9 {
                    let range = [column, kinds, a, b, c, d];
                    let inside = |d: &u32| plain::in_range(&case, range, *d);
                    let expected: Vec<_> = (0..case.n).filter(inside).collect();
                    assert_eq!(listed(&case, range), expected, "{range:?}");
                    if !failed_end(case.columns[column as usize], range) {
                        assert_eq!(oracle::range(&case, range), expected, "{range:?}");
                    }
                }
            }
        }
    });
}
