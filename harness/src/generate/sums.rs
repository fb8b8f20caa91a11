//! Booleans in which the order of additions, each narrowing and each cost show in the last bit.
use super::BY_ORDER;
use super::order::Orders;
use crate::query::*;

/// One and two halves of its last place.
const BY_NARROWING: [u32; 3] = [0x3f80_0000, 0x3380_0000, 0x3380_0000];

/// What stands beside a hand: mostly nothing, else sizes far apart.
const BESIDE: [u32; 8] = [0, 0, 0, 0, 1, 0x253f_ffff, 0x3380_0000, 0x4780_0000];

impl Orders<'_> {
    /// A Boolean of weighted clauses, `levels` (at least 4) deep at most, with room for its own
    /// record made; `reaching` is the boost that reaches it.
    pub fn sums(&mut self, levels: u32, reaching: f32) -> Node {
        let [musts, shoulds] = self.dealt();
        let filters = self.random.pick(&[0, 0, 0, 0, 1, 2]);
        let prohibited = self.random.pick(&[0, 0, 0, 0, 1, 2]);
        let number = musts.len() + shoulds.len();
        if !self.reserve(number as u32 + filters + prohibited) {
            return self.childless();
        }
        let mut clauses = Vec::new();
        let plain = self.random.once_in(3);
        for (weights, occurrence) in [(musts, MUST), (shoulds, SHOULD)] {
            for bits in weights {
                let clause = match self.random.below(12) {
                    0 if occurrence == SHOULD => self.node(levels - 1, reaching),
                    _ if plain => self.plain(reaching),
                    _ => self.scoring(bits, levels - 1, reaching),
                };
                clauses.push(clause.occurring(occurrence));
            }
        }
        for _ in 0..filters {
            clauses.push(self.taker(levels - 1).filter());
        }
        for _ in 0..prohibited {
            clauses.push(self.sparse().must_not());
        }
        self.random.shuffle(&mut clauses);
        self.with_msm(clauses)
    }

    /// The weights of the Musts and of the Shoulds: a hand dealt to them, and some more.
    fn dealt(&mut self) -> [Vec<u32>; 2] {
        let mut hand = match self.random.below(3) {
            0 => BY_NARROWING,
            _ => BY_ORDER,
        };
        self.random.shuffle(&mut hand);
        let any = self.random.within(0, 0x4780_0000);
        let (musts, shoulds): (&[u32], &[u32]) = match self.random.below(16) {
            0..=8 => (&hand, &[]),
            9 => (&hand[..2], &hand[2..]),
            10 => (&hand[..1], &hand[1..]),
            11 | 12 => (&[], &hand),
            13 => (&[0], &hand),
            14 => (&[any, hand[0]], &hand[1..]),
            _ => (&[], &[any]),
        };
        let mut dealt = [musts.to_vec(), shoulds.to_vec()];
        for weights in &mut dealt {
            for _ in 0..self.random.pick(&[0, 0, 0, 0, 1, 2]) {
                weights.push(self.random.pick(&BESIDE));
            }
        }
        dealt
    }

    /// A clause that scores a weight; now and then a nested sum or any node.
    fn scoring(&mut self, bits: u32, levels: u32, reaching: f32) -> Node {
        match self.random.below(48) {
            0 => self.node(levels, reaching),
            1..=3 if levels > 3 => self.sums(levels, reaching),
            _ => self.boosted(bits, levels, reaching),
        }
    }

    fn boosted(&mut self, bits: u32, levels: u32, reaching: f32) -> Node {
        let weight = reaching * f32::from_bits(bits);
        if weight > 65_536.0 || !self.reserve(1) {
            return self.dense();
        }
        match self.random.below(16) {
            0 if levels > 4 => boost(bits, self.sums(levels - 1, weight)),
            1 => boost(bits, match_all()),
            2 if self.random.once_in(2) => boost(bits, self.childless()),
            _ if !self.reserve(1) => boost(bits, self.dense()),
            _ => weighted(bits, self.taker(levels - 2)),
        }
    }

    /// A clause that scores by BM25, two levels deep at most.
    fn plain(&mut self, reaching: f32) -> Node {
        match self.random.below(6) {
            0 => self.phrase_of(&[0, 1], false, true),
            1 | 2 if self.reserve(1) => {
                let (factor, _) = self.factor(reaching);
                boost(factor, self.dense())
            }
            _ => self.dense(),
        }
    }

    /// A leaf that holds the whole core, where there is one.
    pub fn dense(&mut self) -> Node {
        match self.index.dense.as_slice() {
            [] => match_all(),
            dense => {
                let jump = self.random.pick(&[0, 1, 1, 1, 2]);
                self.turn += jump;
                term(dense[self.turn % dense.len()])
            }
        }
    }

    /// A leaf of few documents, where there is one.
    pub fn sparse(&mut self) -> Node {
        match self.index.sparse.as_slice() {
            [] => match_none(),
            sparse => term(self.random.pick(sparse)),
        }
    }

    /// A node that takes many documents, of a cost that must be worked out.
    fn taker(&mut self, levels: u32) -> Node {
        match self.random.below(24) {
            0 => match_all(),
            1 | 2 if !self.index.case.columns.is_empty() => self.wide_range(),
            3 | 4 if levels > 1 => {
                let step = self.random.below(2);
                self.phrase_of(&[0, step], false, true)
            }
            5..=7 if levels > 1 && self.reserve(3) => {
                let three = [(); 3].map(|()| self.dense().should());
                let msm = self.random.below(3);
                boolean(msm, three)
            }
            8..=13 if levels > 1 && self.reserve(2) => self.pair(),
            _ => self.dense(),
        }
    }

    /// A Must beside a clause that adds to its cost or doesn't.
    fn pair(&mut self) -> Node {
        let main = self.dense().must();
        let beside = match self.random.below(5) {
            0 => self.sparse().must_not(),
            1 => self.sparse().should(),
            2 => self.dense().should(),
            _ => self.dense().filter(),
        };
        boolean(0, [main, beside])
    }
}
