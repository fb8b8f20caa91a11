//! Booleans built so that one slip, in the order of adding, in a narrowing or in a cost, flips the
//! last bit of a score.
use super::order::Orders;
use super::{BY_ORDER, Readings, Y, Z};
use crate::failed::{Range, between, listed, present};
use crate::query::*;

const ONE: u32 = 0x3f80_0000;
/// half of the last place of 1
const HALF: u32 = 0x3380_0000;

impl Orders<'_> {
    /// Such a Boolean; `None` where the index has no leaves that fit.
    pub fn shown(&mut self) -> Option<Node> {
        let (msm, mut clauses) = match self.random.below(14) {
            0..=5 => {
                let sort = self.random.below(self.sorts());
                (0, (0..20).find_map(|_| self.pivoted(sort))?)
            }
            6 | 7 => self.tied()?,
            8 => self.halved(),
            9 => (0, self.ordered(SHOULD)?),
            10 => (0, vec![self.phrase_by_idf()?.must()]),
            _ => (0, self.ordered(MUST)?),
        };
        if self.random.once_in(4) {
            clauses.push(boost(0, self.dense()).must());
        }
        if self.random.once_in(4) {
            clauses.push(self.dense().filter());
        }
        if self.random.once_in(4) {
            clauses.push(self.sparse().must_not());
        }
        let root = boolean(msm, clauses);
        Some(match self.random.below(6) {
            0 => boost(self.random.within(120, 134) << 23, root),
            1 => boolean(0, [root.must()]),
            _ => root,
        })
    }

    /// How many sorts of pivots there are.
    fn sorts(&self) -> u32 {
        match self.index.readings {
            Readings::Recorded => 9,
            Readings::Values => 10,
            Readings::Ends => 11,
        }
    }

    /// A dense leaf, or MatchAll, whose cost is at least `from` and below `to`.
    fn of_cost(&mut self, from: u32, to: u32) -> Option<Node> {
        let fits = |cost| from <= cost && cost < to;
        let dense = self.index.dense.iter();
        let fitting = dense.filter(|leaf| fits(self.cost(**leaf)));
        let mut nodes: Vec<_> = fitting.map(|leaf| term(*leaf)).collect();
        if fits(self.index.case.n) {
            nodes.push(match_all());
        }
        self.random.shuffle(&mut nodes);
        nodes.pop()
    }

    fn cost(&self, leaf: u32) -> u32 {
        self.index.case.leaves[4 * leaf as usize + 2]
    }

    /// The cost of a Term or of MatchAll.
    fn node_cost(&self, node: &Node) -> u32 {
        match node.kind {
            TERM => self.cost(node.values[0]),
            _ => self.index.case.n,
        }
    }

    /// Three dense leaves of rising cost, so weighted that clause order and cost order differ in
    /// whether y comes last.
    fn ordered(&mut self, occurrence: u32) -> Option<Vec<Node>> {
        let mut leaves: Vec<_> = self.index.dense.to_vec();
        leaves.sort_by_key(|leaf| self.cost(*leaf));
        leaves.dedup_by_key(|leaf| self.cost(*leaf));
        let [first, .., last] = leaves.as_slice() else {
            return None;
        };
        let middle = self.of_cost(self.cost(*first) + 1, self.cost(*last))?;
        let mut weights = BY_ORDER;
        self.random.shuffle(&mut weights);
        let nodes = [term(*first), middle, term(*last)];
        let order = self.other_order(weights);
        let clause = |i: usize| weighted(weights[i], nodes[i].clone()).occurring(occurrence);
        Some(order.map(clause).to_vec())
    }

    /// An order of three weights that differs from theirs in whether y comes last.
    fn other_order(&mut self, weights: [u32; 3]) -> [usize; 3] {
        let mut order = [0, 1, 2];
        while (weights[order[2]] == Y) == (weights[2] == Y) {
            self.random.shuffle(&mut order);
        }
        order
    }

    /// A phrase of leaves with idf x, y and z whose offsets rise in another order.
    fn phrase_by_idf(&mut self) -> Option<Node> {
        let mut weights = BY_ORDER;
        self.random.shuffle(&mut weights);
        let order = self.other_order(weights);
        let case = &self.index.case;
        let mut phrases = self.index.phrases.iter();
        phrases.find_map(|(field, leaves)| {
            let mut terms = [(0, 0); 3];
            for (offset, i) in (0..).zip(order) {
                let has = |leaf: u32| case.leaves[4 * leaf as usize + 3] == weights[i];
                let mut dense = leaves.iter().filter(|leaf| self.index.dense.contains(leaf));
                terms[i] = (*dense.find(|leaf| has(**leaf))?, offset);
            }
            Some(phrase(*field, &terms))
        })
    }

    /// A cheap Must, and two more that would change places if a cost were wrong.
    fn pivoted(&mut self, sort: u32) -> Option<Vec<Node>> {
        let nodes = match sort {
            0 => self.by_live()?,
            _ => {
                let (pivot, right, wrong) = self.pivot(sort);
                let (low, high) = (right.min(wrong), right.max(wrong));
                let cheap = self.of_cost(0, low)?;
                [cheap, pivot, self.of_cost(low + 1, high)?]
            }
        };
        let weights = self.y_not_first().into_iter();
        let clauses = weights.zip(nodes);
        let mut clauses: Vec<_> = clauses.map(|(w, node)| weighted(w, node).must()).collect();
        self.random.shuffle(&mut clauses);
        Some(clauses)
    }

    /// Three leaves, the last two of which would change places if dead documents cost nothing.
    fn by_live(&mut self) -> Option<[Node; 3]> {
        let mut leaves = self.index.dense.clone();
        self.random.shuffle(&mut leaves);
        let costs = |leaf: &u32| (self.cost(*leaf), self.live_cost(*leaf));
        let three = |cheap: &u32, a: &u32, b: &u32| {
            let [(x, of_x), (y, of_y), (z, of_z)] = [cheap, a, b].map(costs);
            x < y && y < z && of_x < of_z && of_z < of_y
        };
        for a in &leaves {
            for b in &leaves {
                if let Some(cheap) = leaves.iter().find(|cheap| three(cheap, a, b)) {
                    return Some([cheap, a, b].map(|leaf| term(*leaf)));
                }
            }
        }
        None
    }

    fn y_not_first(&mut self) -> [u32; 3] {
        let mut weights = BY_ORDER;
        while weights[0] == Y || self.random.once_in(2) {
            self.random.shuffle(&mut weights);
        }
        weights
    }

    /// A node of a sort from 1 on, with its cost and what a slip would take for it.
    fn pivot(&mut self, sort: u32) -> (Node, u32, u32) {
        let [a, b, c] = [(); 3].map(|()| self.dense());
        let [of_a, of_b, of_c] = [&a, &b, &c].map(|node| self.node_cost(node));
        let least = of_a.min(of_b);
        match sort {
            1 => {
                let group = boolean(2, [a, b, c].map(Node::should));
                (group, of_a + of_b + of_c, of_a.max(of_b).max(of_c))
            }
            2 => (boolean(0, [a.must(), b.filter()]), least, of_a),
            3 => (boolean(0, [a.must(), b.must()]), least, of_a + of_b),
            4 => (boolean(0, [a.must(), b.should()]), of_a, least),
            5 => self.phrase_pivot().unwrap_or((a, of_a, of_a)),
            6 => self.range_pivot().unwrap_or((a, of_a, of_a)),
            // a clause that takes nothing has a scorer and a cost; one that can't match has neither
            7 => {
                let nothing = boolean(0, [b.clone().must(), b.must_not()]);
                let group = boolean(0, [a.should(), nothing.should()]);
                (group, of_a + of_b, of_a)
            }
            9 => self.failed_pivot().unwrap_or((a, of_a, of_a)),
            10 => self.failed_end_pivot().unwrap_or((a, of_a, of_a)),
            _ => {
                let never = boolean(3, [b.should(), c.should()]);
                let group = boolean(0, [a.should(), never.should()]);
                (group, of_a, of_a + of_b + of_c)
            }
        }
    }

    /// The same leaf twice stands wherever it stands once; a slip adds up its costs.
    fn phrase_pivot(&mut self) -> Option<(Node, u32, u32)> {
        let dense = &self.index.dense;
        let leaf = (!dense.is_empty()).then(|| self.random.pick(dense))?;
        let field = self.index.case.leaves[4 * leaf as usize];
        let positions = self.index.case.fields[3 * field as usize + 2] == 1;
        let cost = self.cost(leaf);
        let twice = phrase(field, &[(leaf, 1), (leaf, 1)]);
        positions.then_some((twice, cost, 2 * cost))
    }

    /// A range costs its own documents; a slip takes all.
    fn range_pivot(&mut self) -> Option<(Node, u32, u32)> {
        let case = &self.index.case;
        if case.columns.is_empty() {
            return None;
        }
        let column = self.random.below(case.columns.len() as u32);
        let node = range(column, 3, 0, self.end(column));
        let right = match self.index.readings {
            Readings::Recorded => self.counted(node.values),
            _ => self.listed(node.values),
        };
        Some((node, right, case.n))
    }

    /// How many documents a range lists.
    fn listed(&self, range: Range) -> u32 {
        listed(&self.index.case, range).len() as u32
    }

    /// How many documents lie between a range's ends where NaN is ordered too.
    fn counted(&self, range: Range) -> u32 {
        let case = &self.index.case;
        let kind = case.columns[range[0] as usize];
        let values = present(case, range[0]);
        let inside = values.filter(|(_, value)| between(kind, range, *value));
        inside.count() as u32
    }

    pub fn column_of_f64(&mut self) -> Option<u32> {
        let columns = (0..).zip(&self.index.case.columns);
        let of_f64: Vec<u32> = columns
            .filter(|(_, kind)| **kind == 1)
            .map(|(column, _)| column)
            .collect();
        (!of_f64.is_empty()).then(|| self.random.pick(&of_f64))
    }

    /// Failed readings don't count in a range's cost; a slip counts those between its ends.
    fn failed_pivot(&mut self) -> Option<(Node, u32, u32)> {
        let column = self.column_of_f64()?;
        let end = self.end(column);
        let node = match self.random.below(3) {
            0 => range(column, 0, 0, 0),
            1 => range(column, 1, end, 0),
            _ => range(column, 3, 0, end),
        };
        let [right, wrong] = [self.listed(node.values), self.counted(node.values)];
        (right != wrong).then_some((node, right, wrong))
    }

    /// A range with a NaN end has a scorer and costs nothing; a slip counts what lies between its
    /// ends, or takes it for MatchNone.
    fn failed_end_pivot(&mut self) -> Option<(Node, u32, u32)> {
        let node = self.failed_range()?;
        let [a, b] = [(); 2].map(|()| self.dense());
        let [of_a, of_b] = [&a, &b].map(|node| self.node_cost(node));
        if self.random.once_in(2) {
            let wrong = of_a + self.counted(node.values);
            let group = boolean(0, [a.should(), node.should()]);
            return (wrong != of_a).then_some((group, of_a, wrong));
        }
        let both = boolean(2, [node.should(), b.should()]);
        let group = boolean(0, [a.should(), both.should()]);
        Some((group, of_a + of_b, of_a))
    }

    /// How many of a leaf's documents are live.
    fn live_cost(&self, leaf: u32) -> u32 {
        let case = &self.index.case;
        let leaf = &case.leaves[4 * leaf as usize..];
        let run = &case.postings[3 * leaf[1] as usize..][..3 * leaf[2] as usize];
        run.chunks(3).filter(|p| case.is_live(p[0])).count() as u32
    }

    /// A cheap Must, and two parts of equal cost: two Musts, or a Must and the group.
    fn tied(&mut self) -> Option<(u32, Vec<Node>)> {
        let twice = self.dense();
        let cheap = self.of_cost(0, self.node_cost(&twice))?;
        let weights = self.y_not_first();
        let first = weighted(weights[0], cheap).must();
        let [second, third] = [1, 2].map(|i| weighted(weights[i], twice.clone()));
        let (msm, second, third) = match self.random.once_in(3) {
            true => (0, second.must(), third.must()),
            false => (1, second.must(), third.should()),
        };
        let mut clauses = vec![first, second, third, match_none().should()];
        self.random.shuffle(&mut clauses);
        Some((msm, clauses))
    }

    /// Halves of the last place of 1, which show each narrowing.
    fn halved(&mut self) -> (u32, Vec<Node>) {
        let (msm, musts, shoulds): (_, &[u32], &[u32]) = match self.random.below(4) {
            0 => (0, &[ONE, HALF], &[HALF]),
            1 => (0, &[ONE], &[HALF, Z]),
            2 => (1, &[ONE, HALF], &[HALF]),
            _ => (2, &[HALF], &[ONE, HALF]),
        };
        let mut clauses = Vec::new();
        for bits in musts {
            clauses.push(weighted(*bits, self.dense()).must());
        }
        for bits in shoulds {
            clauses.push(weighted(*bits, self.dense()).should());
        }
        self.random.shuffle(&mut clauses);
        (msm, clauses)
    }
}
