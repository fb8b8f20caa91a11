//! What an order lends of a catalogue.
use crate::border::Index;
use crate::case::Case;
use crate::query::*;
use std::ops::Range;
use std::sync::Arc;

/// An order's own leaf records and columns, beside the catalogue's lists.
pub struct Lent {
    pub catalogue: Arc<Case>,
    pub query: Vec<u32>,
    leaves: Vec<u32>,
    columns: Vec<u32>,
    values: Range<usize>,
}

impl Lent {
    /// A case as it is.
    pub fn all(case: Case) -> Lent {
        Lent {
            query: case.query.clone(),
            leaves: case.leaves.clone(),
            columns: case.columns.clone(),
            values: 0..case.values.len(),
            catalogue: Arc::new(case),
        }
    }

    /// Of leaf records and columns what an order names and no others; postings and positions
    /// whole, which costs nothing: runs that are not named are not read.
    pub fn own(catalogue: &Arc<Case>, order: &Node) -> Lent {
        let mut named = Named::default();
        let query = named.numbered(order).words();
        assert!(named.columns.len() <= 1, "columns that may not be adjacent");
        let column = 3 * catalogue.n as usize;
        let values = |first: &u32| column * *first as usize..column * (*first as usize + 1);
        Lent {
            query,
            leaves: records(&catalogue.leaves, &named.leaves, 4),
            columns: records(&catalogue.columns, &named.columns, 1),
            values: named.columns.first().map_or(0..0, values),
            catalogue: catalogue.clone(),
        }
    }

    pub fn index(&self) -> Index<'_> {
        Index {
            leaves: &self.leaves,
            columns: &self.columns,
            values: &self.catalogue.values[self.values.clone()],
            ..self.catalogue.index()
        }
    }
}

/// The records with these numbers.
fn records(all: &[u32], numbers: &[u32], words: usize) -> Vec<u32> {
    let record = |number: &u32| &all[words * *number as usize..][..words];
    numbers.iter().flat_map(record).copied().collect()
}

/// The leaves and columns that an order names, in the order in which it does.
#[derive(Default)]
struct Named {
    leaves: Vec<u32>,
    columns: Vec<u32>,
}

impl Named {
    /// The same order with leaves and columns numbered by where they stand here.
    fn numbered(&mut self, node: &Node) -> Node {
        let mut numbered = node.clone();
        let first = &mut numbered.values[0];
        match node.kind {
            TERM | PHRASE_TERM => *first = place(&mut self.leaves, *first),
            RANGE => *first = place(&mut self.columns, *first),
            _ => (),
        }
        let children = node.children.iter().map(|child| self.numbered(child));
        numbered.children = children.collect();
        numbered
    }
}

/// Where a number stands in a list; at its end where it did not yet.
fn place(list: &mut Vec<u32>, number: u32) -> u32 {
    let found = list.iter().position(|other| *other == number);
    let place = found.unwrap_or(list.len());
    if found.is_none() {
        list.push(number);
    }
    place as u32
}
