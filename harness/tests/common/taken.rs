//! Which documents each node of an order takes, live or not, by document 01's words.
use super::plain;
use harness::case::Case;
use harness::query::*;

/// A node, whether it takes each document, and its clauses.
pub struct Taken<'a> {
    pub node: &'a Node,
    pub documents: Vec<bool>,
    pub below: Vec<Taken<'a>>,
}

impl<'a> Taken<'a> {
    pub fn new(case: &Case, node: &'a Node) -> Taken<'a> {
        let below: Vec<_> = match node.kind {
            PHRASE => vec![],
            _ => node.children.iter().map(|c| Taken::new(case, c)).collect(),
        };
        let all = 0..case.n;
        let documents = match node.kind {
            TERM => {
                let mut documents = vec![false; case.n as usize];
                for posting in plain::postings(case, node.values[0]) {
                    documents[posting[0] as usize] = true;
                }
                documents
            }
            PHRASE => all
                .map(|d| !plain::starts(case, node, d).is_empty())
                .collect(),
            RANGE => all.map(|d| plain::in_range(case, node.values, d)).collect(),
            MATCH_NONE => vec![false; case.n as usize],
            BOOLEAN => all.map(|d| by_clauses(node, &below, d as usize)).collect(),
            CONSTANT_SCORE | BOOST => below[0].documents.clone(),
            _ => vec![true; case.n as usize],
        };
        Taken {
            node,
            documents,
            below,
        }
    }

    /// The clauses of an occurrence.
    pub fn of(&self, occurrence: u32) -> impl Iterator<Item = &Taken<'a>> {
        let clauses = self.below.iter();
        clauses.filter(move |clause| clause.node.occurrence == occurrence)
    }

    /// The clauses that all have to take a document.
    pub fn required(&self) -> Vec<&Taken<'a>> {
        self.of(MUST).chain(self.of(FILTER)).collect()
    }

    /// How many clauses of an occurrence take a document.
    pub fn count(&self, occurrence: u32, document: usize) -> u32 {
        let clauses = self.of(occurrence);
        clauses.filter(|c| c.documents[document]).count() as u32
    }

    /// The documents that it takes.
    pub fn list(&self) -> Vec<u32> {
        let all = (0..).zip(&self.documents);
        all.filter(|(_, taken)| **taken).map(|(d, _)| d).collect()
    }

    /// The node and all below it, but for a phrase's terms.
    pub fn all(&self) -> Vec<&Taken<'a>> {
        let below = self.below.iter().flat_map(Taken::all);
        std::iter::once(self).chain(below).collect()
    }

    /// Levels of Booleans.
    pub fn booleans(&self) -> u32 {
        let below = self.below.iter().map(Taken::booleans).max();
        u32::from(self.node.kind == BOOLEAN) + below.unwrap_or(0)
    }
}

fn by_clauses(node: &Node, below: &[Taken], document: usize) -> bool {
    let count = |occurrence| {
        let clauses = below.iter().filter(|c| c.node.occurrence == occurrence);
        let taking = clauses.clone().filter(|c| c.documents[document]).count();
        [clauses.count() as u32, taking as u32]
    };
    let [musts, shoulds, nots, filters] = [MUST, SHOULD, MUST_NOT, FILTER].map(count);
    let required = musts[0] + filters[0];
    let least = node.values[0].max(u32::from(required == 0));
    required == musts[1] + filters[1] && least <= shoulds[1] && nots[1] == 0
}
