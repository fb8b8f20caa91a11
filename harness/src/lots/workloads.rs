//! The kinds of orders by which time is measured.
use super::{K, Lots};
use crate::query::*;

/// A kind of order: its name, how many hits it asks for, and the order.
pub struct Workload {
    pub name: &'static str,
    pub k: u32,
    pub(super) order: fn(&mut Lots) -> Node,
}

const fn workload(name: &'static str, order: fn(&mut Lots) -> Node) -> Workload {
    Workload { name, k: K, order }
}

impl Workload {
    /// What people type: `+` Must, `-` MustNot, bare Should, quotes a phrase.
    pub fn is_typed(&self) -> bool {
        self.name.starts_with("typed ")
    }

    /// Whether its orders lend no more than they name.
    pub fn lends_its_own(&self) -> bool {
        self.name != "512 words lent"
    }
}

/// What a clause that is typed asks for.
pub(super) type Asked = fn(&mut Lots) -> Node;
const WORD: Asked = Lots::any_word;
const TOGETHER: Asked = Lots::any_phrase;

pub const WORKLOADS: &[Workload] = &[
    workload("single word", |lots| lots.word(10)),
    workload("rare word", |lots| lots.word(2000)),
    workload("phrase", Lots::pair),
    workload("phrase of 2", |lots| lots.together(2, 5)),
    workload("phrase of 3", |lots| lots.together(3, 5)),
    workload("rare AND common", |lots| lots.all_of([2000, 3])),
    workload("common AND common", |lots| lots.all_of([4, 3])),
    workload("3 common AND", |lots| lots.all_of([3, 4, 5])),
    workload("disjunction of 8", |lots| lots.any_of_eight(0)),
    workload("3 of 8", |lots| lots.any_of_eight(3)),
    workload("buyer's order", Lots::buyer),
    workload("range, exclusion", |lots| {
        let clauses = [lots.fine().must(), lots.word(20).must_not()];
        boolean(0, clauses)
    }),
    workload("deep tree", Lots::deep),
    Workload {
        name: "match all, k 1,024",
        k: 1024,
        order: |_| match_all(),
    },
    workload("typed +a b", |lots| {
        lots.typed(&[(MUST, WORD), (SHOULD, WORD)])
    }),
    workload("typed +a b c", |lots| {
        lots.typed(&[(MUST, WORD), (SHOULD, WORD), (SHOULD, WORD)])
    }),
    workload("typed +a \"p q\"", |lots| {
        lots.typed(&[(MUST, WORD), (SHOULD, TOGETHER)])
    }),
    workload("typed +a -\"p q\"", |lots| {
        lots.typed(&[(MUST, WORD), (MUST_NOT, TOGETHER)])
    }),
    workload("typed +a +b c", |lots| {
        lots.typed(&[(MUST, WORD), (MUST, WORD), (SHOULD, WORD)])
    }),
    workload("typed +a", |lots| lots.typed(&[(MUST, WORD)])),
    workload("typed +a +b", |lots| {
        lots.typed(&[(MUST, WORD), (MUST, WORD)])
    }),
    workload("typed +a -b", |lots| {
        lots.typed(&[(MUST, WORD), (MUST_NOT, WORD)])
    }),
    workload("typed a b c", |lots| {
        lots.typed(&[(SHOULD, WORD), (SHOULD, WORD), (SHOULD, WORD)])
    }),
    workload("512 words lent", |lots| {
        let leaves: Vec<_> = (1..=512).map(|rank| lots.word(8 * rank)).collect();
        leaves[200].clone()
    }),
];
