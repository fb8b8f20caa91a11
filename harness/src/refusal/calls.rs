//! The number with which a call of an entry is refused: that of its index and query, or the
//! caller's own, 11 to 14.
use super::{order, root};
use crate::case::Case;
use crate::query::*;

const LAST_DOCUMENT: u32 = 2_147_483_646;
const INFINITY: u32 = 0x7f80_0000;

/// Words of a node state.
pub const NODE_STATE_WORDS: usize = 32;

/// Numbers that Search and Pick answer, and Page.
pub const FOUND: usize = 3;
pub const PAGED: usize = 2;

/// How long the buffers of a call are; an entry looks at its own alone.
#[derive(Clone, Copy, Debug, Default, PartialEq, Eq)]
pub struct Lengths {
    pub states: usize,
    pub starts: usize,
    pub other_starts: usize,
    pub ranges: usize,
    pub hits: usize,
    pub documents: usize,
    pub scores: usize,
    pub answer: usize,
}

/// The judge of all calls with one index and query.
pub struct Judge {
    /// the lowest number of 1 to 10, or 0
    pub order: u32,
    /// the work buffers that an accepted order needs
    pub needed: Lengths,
    n: u32,
}

impl Judge {
    pub fn new(case: &Case) -> Judge {
        let order = order(case);
        let needed = match order {
            0 => needed(case, &root(case)),
            _ => Lengths::default(),
        };
        let n = case.n;
        Judge { order, needed, n }
    }

    /// The lowest number of 1 to 12 that holds.
    pub fn search(&self, k: u32, lent: &Lengths) -> u32 {
        match self.order {
            0 if wrong_k(k) => 11,
            0 if self.work_short(lent) || found_short(k, lent) => 12,
            number => number,
        }
    }

    /// The lowest number of 1 to 10, 12 and 13 that holds.
    pub fn page(&self, target: u32, lent: &Lengths) -> u32 {
        let unequal = lent.documents != lent.scores;
        match self.order {
            0 if self.work_short(lent) || unequal || lent.answer < PAGED => 12,
            0 if target > self.n => 13,
            number => number,
        }
    }

    fn work_short(&self, lent: &Lengths) -> bool {
        lent.states < self.needed.states
            || lent.starts < self.needed.starts
            || lent.other_starts < self.needed.other_starts
            || lent.ranges < self.needed.ranges
    }
}

/// The lowest number of 11, 12 and 14 that holds for a call of Pick.
pub fn pick(documents: &[u32], scores: &[u32], k: u32, lent: &Lengths) -> u32 {
    match () {
        () if wrong_k(k) => 11,
        () if found_short(k, lent) => 12,
        () if wrong_lists(documents, scores) => 14,
        () => 0,
    }
}

pub(super) fn wrong_k(k: u32) -> bool {
    !(1..=1024).contains(&k)
}

fn found_short(k: u32, lent: &Lengths) -> bool {
    lent.hits < k as usize || lent.answer < FOUND
}

fn wrong_lists(documents: &[u32], scores: &[u32]) -> bool {
    let ascending = documents.windows(2).all(|pair| pair[0] < pair[1]);
    documents.len() != scores.len()
        || !ascending
        || documents.iter().any(|document| *document > LAST_DOCUMENT)
        || scores.iter().any(|bits| *bits > INFINITY)
}

/// The work buffers that an accepted order needs over a case's index.
pub fn needed(case: &Case, root: &Node) -> Lengths {
    let records = root.all();
    let of_kind = |kind| records.iter().filter(move |node| node.kind == kind);
    let ranges = of_kind(RANGE).count();
    let frequencies = of_kind(PHRASE_TERM).map(|term| most_frequent(case, term.values[0]));
    let starts = frequencies.max().unwrap_or(0) as usize;
    let lists = if ranges == 0 { 0 } else { ranges + 1 };
    Lengths {
        states: NODE_STATE_WORDS * records.len(),
        starts,
        other_starts: starts,
        ranges: case.n as usize * lists,
        ..Lengths::default()
    }
}

/// The largest frequency in a leaf's run.
fn most_frequent(case: &Case, leaf: u32) -> u32 {
    let leaf = &case.leaves[4 * leaf as usize..];
    let run = &case.postings[3 * leaf[1] as usize..][..3 * leaf[2] as usize];
    run.chunks(3).map(|p| p[1]).max().unwrap_or(0)
}
