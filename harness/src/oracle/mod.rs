//! The oracle: what the unchanged Rust source answers for a valid case. Whether a case is valid
//! is the business of `refusal`; the Rust answers no refusals. It is given NaN values as absent and
//! no NaN ends (`failed::crossed` takes them out of an order).
#[allow(clippy::all)]
pub mod private;
mod tree;

use crate::answer::{Hit, NO_MORE_DOCS, Paged, Searched};
use crate::case::Case;
use crate::failed::ends;
use crate::index::SegmentReader;
use crate::index::segment::{numeric_index, sort_value};
use crate::query::{Node, PHRASE_TERM};
use crate::search::collector::TopScoreDocCollector;
use crate::search::query::Query;
use crate::search::walk;
use crate::sim::Bm25;
use std::sync::Arc;

/// The source's index and query for one valid case.
pub struct Oracle {
    case: Arc<Case>,
    root: Node,
    segment: Arc<SegmentReader>,
    query: Query,
}

impl Oracle {
    pub fn new(case: &Case) -> Oracle {
        let root = Node::decode(&case.query).expect("a valid query");
        Oracle {
            case: Arc::new(case.clone()),
            segment: Arc::new(SegmentReader::new(case)),
            query: tree::query(case, &root),
            root,
        }
    }

    /// Another order over the same index, with the same k and t.
    pub fn with_order(&self, order: &Node) -> Oracle {
        Oracle {
            case: self.case.clone(),
            segment: self.segment.clone(),
            query: tree::query(&self.case, order),
            root: order.clone(),
        }
    }

    /// The full list: walked from `next_doc` to the end, live documents only.
    pub fn list(&self) -> Vec<Hit> {
        walk::list(&self.segment, &self.query, None)
    }

    /// The list from `advance(target)` on: what a Page begun there sees.
    pub fn list_from(&self, target: u32) -> Vec<Hit> {
        let target = i32::try_from(target).expect("a target up to N");
        walk::list(&self.segment, &self.query, Some(target))
    }

    /// Search, with the case's k and t.
    pub fn search(&self) -> Searched {
        collect(&self.list(), self.case.k, self.case.t)
    }

    /// Search as the Rust does it: each match to the collector as the walk comes to it.
    pub fn walk(&self, k: u32, t: u32) -> Searched {
        let mut collector = TopScoreDocCollector::new(k as usize, u64::from(t));
        walk::collect(&self.segment, &self.query, &mut collector);
        searched(&collector)
    }

    /// Page: the first `m` matches at or after the target, and the next one.
    pub fn page(&self, target: u32, m: usize) -> Paged {
        let mut hits = self.list_from(target);
        let next = hits.get(m).map_or(NO_MORE_DOCS, |hit| hit.document);
        hits.truncate(m);
        Paged { hits, next }
    }

    /// The cost of the root's scorer; `None` where the root has no scorer.
    pub fn cost(&self) -> Option<u64> {
        walk::cost(&self.segment, &self.query)
    }

    /// For each query record in turn the cost of its scorer, `None` where it has none. A
    /// PhraseTerm has none of its own.
    pub fn costs(&self) -> Vec<Option<u64>> {
        let cost = |node: &Node| walk::cost(&self.segment, &tree::query(&self.case, node));
        let nodes = self.root.all().into_iter();
        nodes
            .map(|node| (node.kind != PHRASE_TERM).then(|| cost(node)).flatten())
            .collect()
    }

    /// What `next_doc` gives when it is called once more at the end; `None` without a scorer.
    pub fn next_after_end(&self) -> Option<i32> {
        walk::next_after_end(&self.segment, &self.query)
    }
}

/// The collector over a list of documents with their scores.
pub fn collect(list: &[Hit], k: u32, t: u32) -> Searched {
    let mut collector = TopScoreDocCollector::new(k as usize, u64::from(t));
    collector.begin_leaf(0);
    for hit in list {
        collector.collect(hit.document as i32, f32::from_bits(hit.bits));
    }
    searched(&collector)
}

fn searched(collector: &TopScoreDocCollector) -> Searched {
    let hit = |(document, score): (i32, f32)| Hit {
        document: document as u32,
        bits: score.to_bits(),
    };
    Searched {
        hits: collector.top_docs().into_iter().map(hit).collect(),
        count: collector.total_hits,
        mark: collector.hits_lower_bound,
    }
}

/// Pick: the collector over parallel lists of documents and score bits.
pub fn pick(documents: &[u32], scores: &[u32], k: u32, t: u32) -> Searched {
    assert_eq!(documents.len(), scores.len());
    let pairs = documents.iter().zip(scores);
    let list: Vec<_> = pairs
        .map(|(&document, &bits)| Hit { document, bits })
        .collect();
    collect(&list, k, t)
}

/// Range: the documents of a column that lie in a range, given as the six values of its record; no
/// given end is NaN. Of the case only N, columns and values are looked at.
pub fn range(case: &Case, values: [u32; 6]) -> Vec<u32> {
    let column = values[0] as usize;
    let kind = case.columns[column];
    let [lower, upper] =
        ends(values).map(|(end, bits)| tree::bound(end, || sort_value(kind, bits)));
    numeric_index(case, column).range(&lower, &upper)
}

/// Length: what a norm byte decodes to.
pub fn length(byte: u8) -> u32 {
    crate::sim::byte4_to_int(byte)
}

/// The norm byte of a length.
pub fn int_to_byte4(length: u32) -> u8 {
    crate::sim::int_to_byte4(length)
}

/// The inverse for each norm byte, as f32 bits, for an average given as f32 bits.
pub fn inverses(average: u32) -> [u32; 256] {
    let bm25 = Bm25::new(1.0, 1.0, f32::from_bits(average));
    bm25.norm_inverses().map(f32::to_bits)
}

/// BM25's score as f32 bits; boost, idf and average are f32 bits too.
pub fn bm25(boost: u32, idf: u32, average: u32, frequency: u32, norm: u8) -> u32 {
    let [boost, idf, average] = [boost, idf, average].map(f32::from_bits);
    let bm25 = Bm25::new(boost, idf, average);
    bm25.score(frequency as f32, norm).to_bits()
}

/// The next f32 above, both as bits.
pub fn next_up(bits: u32) -> u32 {
    crate::search::util::next_up(f32::from_bits(bits)).to_bits()
}
