//! The generated query: trees of every kind, occurrence, child count and depth.
use super::index::Index;
use super::{Readings, nan_bits, value_bits};
use crate::failed::{failed, ordered};
use crate::query::*;
use crate::random::Random;

const MOST_LEVELS: u32 = 16;
const MOST_BOOST: f32 = 65_536.0;

pub struct Orders<'a> {
    pub random: &'a mut Random,
    pub index: &'a Index,
    /// records that may still be made
    pub records: u32,
    /// dense leaves are mostly taken in turn, so that the costs beside each other differ
    pub turn: usize,
}

pub fn query(random: &mut Random, index: &Index) -> Node {
    let mut orders = Orders {
        random,
        index,
        records: 60,
        turn: 0,
    };
    let root = match orders.random.below(32) {
        0 => orders.chain(MOST_LEVELS, 1.0),
        1 => orders.wide(),
        2..=8 => orders.node(5, 1.0),
        9 | 10 => orders.phrase(),
        11 => orders.term(),
        12..=18 => orders.sums(6, 1.0),
        _ => {
            let shown = (0..8).find_map(|_| orders.shown());
            shown.unwrap_or_else(|| orders.sums(6, 1.0))
        }
    };
    match index.readings {
        Readings::Ends => orders.with_failed_end(root),
        _ => root,
    }
}

impl Orders<'_> {
    /// Makes room for some records, where there is room.
    pub fn reserve(&mut self, records: u32) -> bool {
        let room = self.records >= records;
        if room {
            self.records -= records;
        }
        room
    }

    /// Any node, `levels` deep at most, with room for its own record made; `reaching` is the
    /// boost that reaches it.
    pub fn node(&mut self, levels: u32, reaching: f32) -> Node {
        let parent = levels > 1;
        match self.random.below(10) {
            0 | 1 if parent => self.boolean(levels, reaching),
            2 if levels > 3 => self.sums(levels, reaching),
            3 if parent && self.reserve(1) => constant_score(self.node(levels - 1, 0.0)),
            4 | 5 if parent && self.reserve(1) => {
                let (factor, passed) = self.factor(reaching);
                boost(factor, self.node(levels - 1, passed))
            }
            6 | 7 if parent => self.phrase(),
            _ => self.childless(),
        }
    }

    pub fn childless(&mut self) -> Node {
        match self.random.below(10) {
            0 => match_none(),
            1 => match_all(),
            2..=4 if !self.index.case.columns.is_empty() => self.range(),
            _ => self.term(),
        }
    }

    pub fn term(&mut self) -> Node {
        match (self.index.case.leaves.len() / 4) as u32 {
            0 => match_all(),
            leaves => term(self.random.below(leaves)),
        }
    }

    /// A factor and its product with the boost that reaches it, which is not too large.
    pub fn factor(&mut self, reaching: f32) -> (u32, f32) {
        let any = self.random.within(0, 0x4780_0000);
        let edges = [0, 1, 0x007f_ffff, 0x0080_0000, 0x4780_0000, 0x3f80_0000];
        let factor = match self.random.below(4) {
            0 => self.random.pick(&edges),
            1 => any,
            _ => self.random.within(0x3e00_0000, 0x4180_0000),
        };
        let product = reaching * f32::from_bits(factor);
        match product > MOST_BOOST {
            true => (0x3f80_0000, reaching),
            false => (factor, product),
        }
    }

    fn boolean(&mut self, levels: u32, reaching: f32) -> Node {
        let wanted = self.random.below(6);
        let number = if self.reserve(wanted) { wanted } else { 0 };
        let mut clauses = Vec::new();
        for _ in 0..number {
            let occurrence = self.random.pick(&[MUST, SHOULD, SHOULD, MUST_NOT, FILTER]);
            let passed = match occurrence {
                MUST | SHOULD => reaching,
                _ => 0.0,
            };
            let clause = self.node(levels - 1, passed);
            clauses.push(clause.occurring(occurrence));
        }
        self.with_msm(clauses)
    }

    /// A Boolean of the clauses, its msm of every sort.
    pub fn with_msm(&mut self, clauses: Vec<Node>) -> Node {
        let should = |clause: &&Node| clause.occurrence == SHOULD;
        let shoulds = clauses.iter().filter(should).count() as u32;
        let msm = match self.random.below(32) {
            0 => u32::MAX,
            1 => shoulds + 1,
            _ if shoulds == 0 => 0,
            2..=5 => shoulds,
            6..=9 if shoulds > 2 => self.random.within(2, shoulds - 1),
            10..=14 => 1,
            _ => 0,
        };
        boolean(msm, clauses)
    }

    /// A range of any kinds and ends.
    fn range(&mut self) -> Node {
        let column = self.random.below(self.index.case.columns.len() as u32);
        let ends = [self.end(column), self.end(column)];
        let kinds = self.random.below(9);
        let [lower, upper] = [(kinds % 3, ends[0]), (kinds / 3, ends[1])].map(|end| match end {
            (0, _) => 0,
            (_, bits) => bits,
        });
        range(column, kinds, lower, upper)
    }

    /// A range that holds several of its column's values.
    pub fn wide_range(&mut self) -> Node {
        let case = &self.index.case;
        let column = self.random.below(case.columns.len() as u32);
        let mut ends = [(); 4].map(|()| self.end(column));
        ends.sort_by(|one, other| ordered(case.columns[column as usize], *one, *other));
        match self.random.below(3) {
            0 => range(column, 1, ends[1], 0),
            1 => range(column, 3, 0, ends[2]),
            _ => range(column, 4, ends[0], ends[3]),
        }
    }

    /// An end of a range; whether it may be NaN is told by the readings that are asked for.
    pub fn end(&mut self, column: u32) -> u64 {
        let kind = self.index.case.columns[column as usize];
        loop {
            let bits = self.any_end(column);
            match self.index.readings {
                Readings::Values if failed(kind, bits) => {}
                Readings::Ends if kind == 1 && self.random.once_in(3) => {
                    return nan_bits(self.random);
                }
                _ => return bits,
            }
        }
    }

    /// Often a value of the column, so that included and excluded differ.
    fn any_end(&mut self, column: u32) -> u64 {
        let case = &self.index.case;
        if case.n == 0 || self.random.once_in(4) {
            return value_bits(self.random, case.columns[column as usize]);
        }
        let at = 3 * (column * case.n + self.random.below(case.n)) as usize;
        u64::from(case.values[at + 1]) | u64::from(case.values[at + 2]) << 32
    }

    /// A phrase; terms, gaps and offsets of many sorts, so that starts also fall below 0.
    pub fn phrase(&mut self) -> Node {
        let number = match self.random.below(32) {
            0 => 32,
            1..=6 => 1,
            7..=20 => 2,
            _ => self.random.within(3, 4),
        };
        let shape = self.random.below(8);
        let offset = |i: u32, random: &mut Random| match shape {
            _ if number == 32 => 3,
            0 | 4 => 0,
            1 | 5 => i,
            2 => 2 * i,
            3 => 2_147_483_647 - random.below(2),
            _ => random.below(6),
        };
        let offsets: Vec<_> = (0..number).map(|i| offset(i, self.random)).collect();
        let one = number == 32 || shape < 2;
        self.phrase_of(&offsets, one, false)
    }

    /// A phrase at these offsets, of one leaf or of several, dense ones where they are asked for.
    pub fn phrase_of(&mut self, offsets: &[u32], one: bool, dense: bool) -> Node {
        if self.index.phrases.is_empty() || !self.reserve(offsets.len() as u32) {
            return self.childless();
        }
        let at = self.random.below(self.index.phrases.len() as u32);
        let (field, all) = &self.index.phrases[at as usize];
        let mut leaves = all.clone();
        leaves.retain(|leaf| !dense || self.index.dense.contains(leaf));
        if leaves.is_empty() {
            leaves = all.clone();
        }
        self.random.shuffle(&mut leaves);
        leaves.truncate(if one { 1 } else { offsets.len() });
        let terms = leaves.iter().cycle().zip(offsets);
        let terms: Vec<_> = terms.map(|(leaf, offset)| (*leaf, *offset)).collect();
        phrase(*field, &terms)
    }

    /// A tree exactly `levels` deep.
    fn chain(&mut self, levels: u32, reaching: f32) -> Node {
        match self.random.below(4) {
            _ if levels == 1 => self.childless(),
            _ if levels == 2 && !self.index.phrases.is_empty() => self.phrase(),
            0 => {
                let (factor, passed) = self.factor(reaching);
                boost(factor, self.chain(levels - 1, passed))
            }
            1 => constant_score(self.chain(levels - 1, 0.0)),
            _ => {
                let below = self.chain(levels - 1, reaching);
                let occurrence = self.random.pick(&[MUST, MUST, SHOULD]);
                let beside = self.childless().should();
                boolean(0, [below.occurring(occurrence), beside])
            }
        }
    }

    /// As many clauses as may be; or as many records: 1 + 3 × 65 + 60.
    fn wide(&mut self) -> Node {
        let narrow = self.random.once_in(2);
        let (groups, rest) = if narrow { (0, 64) } else { (3, 60) };
        let mut clauses = Vec::new();
        for _ in 0..groups {
            let own = self.many(64);
            clauses.push(self.with_msm(own).should());
        }
        clauses.extend(self.many(rest));
        self.with_msm(clauses)
    }

    fn many(&mut self, number: u32) -> Vec<Node> {
        let mut clauses = Vec::new();
        for _ in 0..number {
            let clause = self.childless();
            clauses.push(match self.random.below(40) {
                0 => clause.must(),
                1 => clause.filter(),
                2 => clause.must_not(),
                _ => clause.should(),
            });
        }
        clauses
    }
}
