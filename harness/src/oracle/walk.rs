//! The reference: `create_weight`, `scorer`, the walk from `next_doc` to `NO_MORE_DOCS`, `is_live`.
//! It stands among the source's search modules, to which alone these are visible.
use crate::answer::Hit;
use crate::codec::postings_reader::NO_MORE_DOCS;
use crate::index::{DirectoryReader, SegmentReader};
use crate::search::collector::TopScoreDocCollector;
use crate::search::query::Query;
use crate::search::scorer::BoxScorer;
use crate::search::searcher::{IndexSearcher, is_live, scorer};
use std::sync::Arc;

/// The query's own scorer, where it has one.
fn root<'a>(segment: &'a Arc<SegmentReader>, query: &Query) -> Option<BoxScorer<'a>> {
    let searcher = IndexSearcher::new(DirectoryReader::new(segment.clone()));
    let weight = searcher.create_weight(query, 1.0);
    scorer(&weight, segment).unwrap()
}

/// The live documents that the query takes, with scores: from `next_doc` on, or from
/// `advance(target)` on.
pub fn list(segment: &Arc<SegmentReader>, query: &Query, target: Option<i32>) -> Vec<Hit> {
    let mut list = Vec::new();
    let Some(mut scorer) = root(segment, query) else {
        return list;
    };
    let mut document = match target {
        Some(target) => scorer.advance(target),
        None => scorer.next_doc(),
    };
    while document != NO_MORE_DOCS {
        if is_live(segment.live_docs(), document) {
            list.push(Hit {
                document: document as u32,
                bits: scorer.score().to_bits(),
            });
        }
        document = scorer.next_doc();
    }
    list
}

/// Each live document that the query takes to a collector.
pub fn collect(segment: &Arc<SegmentReader>, query: &Query, into: &mut TopScoreDocCollector) {
    into.begin_leaf(0);
    let Some(mut scorer) = root(segment, query) else {
        return;
    };
    let live = segment.live_docs();
    let mut document = scorer.next_doc();
    while document != NO_MORE_DOCS {
        if is_live(live, document) {
            into.collect(document, scorer.score());
        }
        document = scorer.next_doc();
    }
}

/// The cost of the query's scorer, where it has one.
pub fn cost(segment: &Arc<SegmentReader>, query: &Query) -> Option<u64> {
    root(segment, query).map(|scorer| u64::try_from(scorer.cost()).unwrap())
}

/// `next_doc` called once more at the end of the walk.
pub fn next_after_end(segment: &Arc<SegmentReader>, query: &Query) -> Option<i32> {
    let mut scorer = root(segment, query)?;
    while scorer.next_doc() != NO_MORE_DOCS {}
    Some(scorer.next_doc())
}
