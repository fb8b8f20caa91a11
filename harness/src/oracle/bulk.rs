//! In place of src/search/bulk.rs: the searcher's own loop above `scorer` names these. It may skip
//! documents and isn't the reference, so none of them ever runs.
use crate::error::Result;
use crate::index::LiveDocs;
use crate::search::collector::TopScoreDocCollector;
use crate::search::query::Query;
use crate::search::searcher::IndexSearcher;
use crate::search::term_scorer::TermScorer;

pub struct MaxScoreBulkScorer;

impl MaxScoreBulkScorer {
    pub fn new(_: Vec<TermScorer<'_>>, _: Option<&LiveDocs>) -> Self {
        unreachable!()
    }
    pub fn score(&mut self, _: &mut TopScoreDocCollector, _: i32, _: i32) {
        unreachable!()
    }
}

pub struct BlockMaxConjunctionBulkScorer;

impl BlockMaxConjunctionBulkScorer {
    pub fn new(_: Vec<TermScorer<'_>>, _: Option<&LiveDocs>) -> Self {
        unreachable!()
    }
    pub fn score(&mut self, _: &mut TopScoreDocCollector, _: i32, _: i32) {
        unreachable!()
    }
}

pub fn score_term(_: &mut TermScorer<'_>, _: &mut TopScoreDocCollector, _: Option<&LiveDocs>) {
    unreachable!()
}

impl IndexSearcher {
    pub fn validate_query(&self, _: &Query) -> Result<()> {
        unreachable!()
    }
}
