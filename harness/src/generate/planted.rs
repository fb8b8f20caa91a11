//! A range with a NaN end at any place of an order.
use super::nan_bits;
use super::order::Orders;
use crate::failed::failed_end;
use crate::query::*;

const MOST_RECORDS: usize = 256;
const MOST_CLAUSES: usize = 64;
const MOST_LEVELS: usize = 16;

impl Orders<'_> {
    /// The order, with such a range put into it where it has none: beside a clause, so that what
    /// matched still does, or anywhere.
    pub fn with_failed_end(&mut self, root: Node) -> Node {
        let columns = &self.index.case.columns;
        let failed = |node: &&Node| {
            node.kind == RANGE && failed_end(columns[node.values[0] as usize], node.values)
        };
        if root.all().iter().any(failed) {
            return root;
        }
        let range = self.failed_range().expect("a column of f64 values");
        let room = root.depth() < MOST_LEVELS && root.all().len() + 2 <= MOST_RECORDS;
        match room && self.random.once_in(2) {
            true => self.beside(root, range),
            false => self.anywhere(root, range),
        }
    }

    /// In a Boolean of its own with the whole order.
    fn beside(&mut self, root: Node, range: Node) -> Node {
        let [whole, beside] = match self.random.below(4) {
            0 => [root.should(), range.should()],
            1 => [root.must(), range.must_not()],
            _ => [root.must(), range.should()],
        };
        let mut clauses = [whole, beside];
        self.random.shuffle(&mut clauses);
        boolean(0, clauses)
    }

    /// In the place of a node, or as one clause more of a Boolean.
    fn anywhere(&mut self, mut root: Node, range: Node) -> Node {
        let records = root.all().len();
        let mut at = self.random.below(places(&root)) as usize;
        let place = place(&mut root, &mut at).expect("a place below their number");
        match place.kind {
            BOOLEAN if place.children.len() < MOST_CLAUSES && records < MOST_RECORDS => {
                let occurrences = [MUST, SHOULD, SHOULD, SHOULD, MUST_NOT, MUST_NOT, FILTER];
                let clause = range.occurring(self.random.pick(&occurrences));
                let at = self.random.below(place.children.len() as u32 + 1);
                place.children.insert(at as usize, clause);
            }
            CONSTANT_SCORE | BOOST => place.children = vec![range],
            _ => *place = range.occurring(place.occurrence),
        }
        root
    }

    /// A range over f64 values: one end that is given is NaN, the other is any.
    pub fn failed_range(&mut self) -> Option<Node> {
        let column = self.column_of_f64()?;
        let kinds = self.random.within(1, 8);
        let mut ends = [(kinds % 3, self.end(column)), (kinds / 3, self.end(column))];
        let mut given: Vec<_> = ends.iter_mut().filter(|(end, _)| *end != 0).collect();
        let at = self.random.below(given.len() as u32) as usize;
        given[at].1 = nan_bits(self.random);
        let [lower, upper] = ends.map(|(end, bits)| if end == 0 { 0 } else { bits });
        Some(range(column, kinds, lower, upper))
    }
}

/// The nodes of a tree, a phrase counted as one.
fn places(node: &Node) -> u32 {
    match node.kind {
        PHRASE => 1,
        _ => 1 + node.children.iter().map(places).sum::<u32>(),
    }
}

/// The node at a place in record order.
fn place<'a>(node: &'a mut Node, at: &mut usize) -> Option<&'a mut Node> {
    if *at == 0 {
        return Some(node);
    }
    *at -= 1;
    if node.kind == PHRASE {
        return None;
    }
    let mut below = node.children.iter_mut();
    below.find_map(|child| place(child, at))
}
