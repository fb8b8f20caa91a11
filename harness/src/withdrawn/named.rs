//! How a lot can stand before it is withdrawn, by name: cases that surely have each, and how often
//! others do.
use crate::answer::Hit;
use crate::case::Case;
use crate::catalogue::Catalogue;
use crate::generate::{X, Y, Z};
use crate::query::*;
use std::cmp::Reverse;
use std::sync::atomic::{AtomicU64, Ordering};

/// The most hits that can be asked for when one more is asked for before.
pub const MOST: u32 = 1023;

/// How a lot stood before it was withdrawn.
pub struct Stood<'a> {
    case: &'a Case,
    document: u32,
    k: u32,
    /// the full list, the best hit first
    ranking: Vec<Hit>,
}

impl<'a> Stood<'a> {
    pub fn new(case: &'a Case, [document, k]: [u32; 2], mut list: Vec<Hit>) -> Stood<'a> {
        list.sort_by_key(|hit| Reverse(hit.code()));
        Stood {
            case,
            document,
            k,
            ranking: list,
        }
    }

    /// Its place in the ranking, from 0.
    fn place(&self) -> Option<u32> {
        let mut ranks = (0..).zip(&self.ranking);
        let own = ranks.find(|(_, hit)| hit.document == self.document);
        own.map(|(place, _)| place)
    }

    fn below_n(&self) -> bool {
        self.document < self.case.n
    }

    /// k is the most, and more match than are asked for before.
    fn in_large(&self) -> bool {
        self.k == MOST && self.ranking.len() > 1024
    }

    /// The hits right before it and right after it have its score.
    fn tied(&self) -> bool {
        let mut threes = self.ranking.windows(3);
        threes.any(|three| {
            let [before, own, after] = [three[0], three[1], three[2]];
            own.document == self.document && before.bits == own.bits && own.bits == after.bits
        })
    }
}

/// A name, and whether a lot stood so.
type Name = (&'static str, fn(&Stood) -> bool);

/// How the names begin that no generated case has: they are too small.
const LARGE: &str = "k 1,023";

pub const NAMES: [Name; 20] = [
    ("no live words", |s| s.below_n() && s.case.live.is_empty()),
    ("N a multiple of 64", |s| {
        s.case.n > 0 && s.case.n.is_multiple_of(64)
    }),
    ("N 65", |s| s.case.n == 65),
    ("the last document", |s| {
        s.below_n() && s.document + 1 == s.case.n
    }),
    ("not below N", |s| s.document == s.case.n),
    ("beyond the words", |s| {
        s.document / 64 >= s.case.n.div_ceil(64)
    }),
    ("its bit is 0 already", |s| {
        s.below_n() && !s.case.is_live(s.document)
    }),
    ("no match", |s| {
        s.below_n() && s.case.is_live(s.document) && s.place().is_none()
    }),
    ("the best hit", |s| s.place() == Some(0)),
    ("the last of k hits", |s| s.place() == Some(s.k - 1)),
    ("the (k + 1)-th hit", |s| s.place() == Some(s.k)),
    ("behind the (k + 1)-th hit", |s| s.place() > Some(s.k)),
    ("ties around it", |s| s.tied()),
    ("the only match", |s| {
        s.place() == Some(0) && s.ranking.len() == 1
    }),
    ("fewer than k match", |s| {
        s.place().is_some() && s.ranking.len() < s.k as usize
    }),
    ("k 1,023, the best hit", |s| {
        s.in_large() && s.place() == Some(0)
    }),
    ("k 1,023, the last of k hits", |s| {
        s.in_large() && s.place() == Some(1022)
    }),
    ("k 1,023, the (k + 1)-th hit", |s| {
        s.in_large() && s.place() == Some(1023)
    }),
    ("k 1,023, behind the (k + 1)-th hit", |s| {
        s.in_large() && s.place() > Some(1023)
    }),
    ("k 1,023, not below N", |s| s.in_large() && !s.below_n()),
];

/// How often lots stood as each name says.
#[derive(Default)]
pub struct Reach([AtomicU64; NAMES.len()]);

impl Reach {
    pub fn note(&self, stood: &Stood) {
        for (count, (_, holds)) in self.0.iter().zip(NAMES) {
            count.fetch_add(u64::from(holds(stood)), Ordering::Relaxed);
        }
    }

    /// Each name was reached at least so often, but for those of large cases where there are none.
    pub fn is_full(&self, least: u64, large: bool) {
        for (count, (name, _)) in self.0.iter().zip(NAMES) {
            let count = count.load(Ordering::Relaxed);
            println!("{count:8} {name}");
            let left_out = !large && name.starts_with(LARGE);
            assert!(count >= least || left_out, "{name}");
        }
    }
}

/// Documents in groups of equal scores, the best group first.
fn ranked(n: u32, groups: &[&[u32]]) -> Case {
    let mut catalogue = Catalogue::new(n);
    let field = catalogue.field();
    let mut clauses = Vec::new();
    for (score, group) in (1..=groups.len()).rev().zip(groups) {
        let leaf = term(catalogue.leaf(field, group));
        clauses.push(weighted((score as f32).to_bits(), leaf).should());
    }
    catalogue.case(1, 1, &boolean(0, clauses))
}

/// 3,000 documents of seven scores that all match, and their ranking.
fn large() -> (Case, Vec<u32>) {
    let n = 3000;
    let mut catalogue = Catalogue::new(n);
    let field = catalogue.field();
    let run: Vec<_> = (0..n).map(|d| (d, 1 + d % 7)).collect();
    let leaf = catalogue.leaf_of_frequencies(field, 1.0, &run);
    let mut ranking: Vec<_> = (0..n).collect();
    ranking.sort_by_key(|d| Reverse(d % 7));
    (catalogue.case(1, 1, &term(leaf)), ranking)
}

/// Document 0 scores by the order of its leaves' costs, and document 1, no match, decides it: with
/// its posting counted, 3f800001, without it 3f800000.
pub fn by_cost() -> Case {
    let mut catalogue = Catalogue::new(2);
    let field = catalogue.field();
    let one = term(catalogue.leaf(field, &[0]));
    let both = term(catalogue.leaf(field, &[0, 1]));
    let clauses = [
        weighted(X, one.clone()),
        weighted(Z, both),
        weighted(Y, one),
    ];
    catalogue.case(1, 1, &boolean(0, clauses.map(Node::must)))
}

/// Cases with the name of how the lot stands in them, the lot and k.
pub fn all() -> Vec<(&'static str, Case, [u32; 2])> {
    let few = || ranked(10, &[&[7], &[1, 2, 3], &[0, 9]]);
    let one_word = || ranked(64, &[&[63], &[0, 5]]);
    let two_words = || ranked(128, &[&[63, 64, 127], &[0]]);
    let (large, ranking) = large();
    let mut all = vec![
        ("no live words", few(), [2, 2]),
        ("the last document", few(), [9, 2]),
        ("not below N", few(), [10, 2]),
        ("beyond the words", few(), [64, 2]),
        ("its bit is 0 already", few().withdrawn(2), [2, 2]),
        ("no match", few(), [5, 2]),
        ("no match", by_cost(), [1, 1]),
        ("the best hit", few(), [7, 2]),
        ("the last of k hits", few(), [1, 2]),
        ("the (k + 1)-th hit", few(), [2, 2]),
        ("behind the (k + 1)-th hit", few(), [3, 2]),
        ("ties around it", few(), [2, 2]),
        ("the only match", ranked(3, &[&[1]]), [1, 1]),
        ("fewer than k match", few(), [3, 9]),
        ("N 65", ranked(65, &[&[3, 64], &[0]]), [64, 1]),
        ("k 1,023, not below N", large.clone(), [3000, MOST]),
    ];
    all.extend([62, 63, 64].map(|d| ("N a multiple of 64", one_word(), [d, 1])));
    all.extend([63, 64, 127, 128].map(|d| ("N a multiple of 64", two_words(), [d, 2])));
    for (name, place) in [
        ("k 1,023, the best hit", 0),
        ("k 1,023, the last of k hits", 1022),
        ("k 1,023, the (k + 1)-th hit", 1023),
        ("k 1,023, behind the (k + 1)-th hit", 1024),
        ("k 1,023, behind the (k + 1)-th hit", 2999),
    ] {
        all.push((name, large.clone(), [ranking[place], MOST]));
    }
    all
}
