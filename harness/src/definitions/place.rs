//! Place by document 01's words: the starts at which a phrase stands in a document.
use crate::case::Case;
use crate::query::Node;

/// The starts that every term of the phrase at a record has, each once.
pub fn starts(case: &Case, record: usize, document: u32) -> Vec<i64> {
    let root = Node::decode(&case.query).expect("an accepted query");
    let terms = &root.all()[record].children;
    let lists: Vec<_> = terms.iter().map(|t| of_term(case, t, document)).collect();
    let mut common = lists[0].clone();
    common.retain(|start| lists.iter().all(|list| list.contains(start)));
    common.dedup();
    common
}

/// Position − offset for each position of a term in a document.
fn of_term(case: &Case, term: &Node, document: u32) -> Vec<i64> {
    let [leaf, offset, ..] = term.values;
    let leaf = &case.leaves[4 * leaf as usize..];
    let run = &case.postings[3 * leaf[1] as usize..][..3 * leaf[2] as usize];
    let Some(posting) = run.chunks(3).find(|posting| posting[0] == document) else {
        return vec![];
    };
    let own = &case.positions[posting[2] as usize..][..posting[1] as usize];
    let start = |position: &u32| i64::from(*position) - i64::from(offset);
    own.iter().map(start).collect()
}
