//! The orders over an index of windows: roots of every kind, Booleans of every kind and depth.
use super::{Index, WINDOW, WITH_POSITIONS};
use crate::generate::BY_ORDER;
use crate::query::*;
use crate::random::Random;

/// Levels of Booleans at the most: a childless clause of the last stands on the sixteenth level.
pub const DEPTHS: std::ops::RangeInclusive<u32> = 2..=15;

pub const CLAUSES: u32 = 64;

/// Least counts among 64 Shoulds.
pub const LEASTS: [u32; 6] = [1, 2, 32, 63, 64, 65];

/// Records that a clause without Booleans takes at the most: two above a phrase of four terms.
const CLAUSE: u32 = 7;

const OCCURRENCES: [u32; 4] = [MUST, SHOULD, MUST_NOT, FILTER];

pub struct Orders<'a> {
    random: &'a mut Random,
    index: &'a Index,
    /// records that may still be made
    records: u32,
}

impl Orders<'_> {
    pub fn new<'a>(random: &'a mut Random, index: &'a Index) -> Orders<'a> {
        Orders {
            random,
            index,
            records: 120,
        }
    }

    pub fn order(&mut self) -> Node {
        match self.random.below(16) {
            0 => self.childless(),
            1 => constant_score(self.childless()),
            2 => boost(self.factor(), self.node(3)),
            3..=5 => self.boolean(2),
            6 | 7 => self.boolean(5),
            8..=10 => self.deep(),
            11 => self.joined(),
            12 | 13 => self.wide(),
            _ => self.phrases(),
        }
    }

    fn factor(&mut self) -> u32 {
        let factor = self.random.pick(&[0.0f32, 0.5, 1.0, 3.0]);
        factor.to_bits()
    }

    /// A leaf of the core, where there is one.
    fn core(&mut self) -> u32 {
        match self.index.core.is_empty() {
            true => self.random.pick(&self.index.others),
            false => self.random.pick(&self.index.core),
        }
    }

    fn leaf(&mut self) -> u32 {
        match self.index.others.is_empty() || self.random.once_in(2) {
            true => self.core(),
            false => self.random.pick(&self.index.others),
        }
    }

    fn term(&mut self) -> Node {
        term(self.leaf())
    }

    /// Leaves of one field in the places in which the documents have them, or nearly.
    fn phrase(&mut self) -> Node {
        let number = self.random.within(1, 4);
        let mut terms = Vec::new();
        for _ in 0..number {
            let leaf = self.leaf();
            let leaf = match leaf < WITH_POSITIONS {
                true => leaf,
                false => self.random.below(WITH_POSITIONS),
            };
            let beside = u32::from(self.random.once_in(12));
            terms.push((leaf, leaf + beside));
        }
        phrase(self.index.text, &terms)
    }

    /// Nothing, everything, one document, one window or anything between.
    fn range(&mut self) -> Node {
        let n = self.index.n;
        let [a, b] = [self.random.below(n), self.random.below(n)];
        let window = a / WINDOW * WINDOW;
        let of_numbers =
            |kinds, low: u32, high: u32| range(self.index.numbers, kinds, low.into(), high.into());
        match self.random.below(8) {
            0 => of_numbers(1 + 3, 1, 0),
            1 => range(self.index.numbers, 0, 0, 0),
            2 => of_numbers(1 + 3, a, a),
            3 => of_numbers(1 + 2 * 3, window, window + WINDOW),
            4 => of_numbers(2 + 3, window, window + WINDOW),
            5 => of_numbers(1 + 3, a.min(b), a.max(b)),
            6 => of_numbers(1, a, 0),
            _ => {
                let [low, high] = [2, 3].map(|most| f64::from(self.random.within(1, most)));
                range(self.index.values, 1 + 3, low.to_bits(), high.to_bits())
            }
        }
    }

    fn childless(&mut self) -> Node {
        match self.random.below(12) {
            0..=5 => self.term(),
            6..=8 => self.phrase(),
            9 => self.range(),
            10 => match_all(),
            _ if self.random.once_in(3) => match_none(),
            _ => self.range(),
        }
    }

    /// Any clause, with a score of its own, one whose place in a sum shows, or one constant.
    fn clause(&mut self, levels: u32) -> Node {
        match self.random.below(8) {
            0 if levels > 1 => constant_score(self.node(levels - 1)),
            1 if levels > 1 => boost(self.factor(), self.node(levels - 1)),
            2 | 3 if levels > 2 => weighted(self.random.pick(&BY_ORDER), self.node(levels - 2)),
            _ => self.node(levels),
        }
    }

    fn node(&mut self, levels: u32) -> Node {
        match levels > 1 && self.random.once_in(3) {
            true => self.boolean(levels),
            false => self.childless(),
        }
    }

    /// Clauses of one occurrence alone or of several, the least count of every kind.
    fn boolean(&mut self, levels: u32) -> Node {
        let numbers = match self.random.below(8) {
            0 => [self.random.within(2, 4), 0, 0, 0],
            1 => [0, self.random.within(2, 8), 0, 0],
            2 => [0, 0, 0, self.random.within(1, 3)],
            3 => [1, self.random.within(1, 4), 0, 0],
            4 => [self.random.within(1, 2), 0, self.random.within(1, 2), 0],
            5 => [0, self.random.within(1, 4), 1, 1],
            6 => [0, 0, self.random.within(1, 2), 0],
            _ => [0; 4].map(|_| self.random.below(3)),
        };
        let mut clauses = Vec::new();
        for (number, occurrence) in numbers.into_iter().zip(OCCURRENCES) {
            for _ in 0..number {
                if self.records < CLAUSE {
                    break;
                }
                self.records -= CLAUSE;
                let clause = match occurrence {
                    MUST | FILTER if self.random.once_in(2) => term(self.core()),
                    _ => self.clause(levels - 1),
                };
                clauses.push(clause.occurring(occurrence));
            }
        }
        self.random.shuffle(&mut clauses);
        let msm = self.random.pick(&[0, 0, 1, 2, numbers[1], numbers[1] + 1]);
        boolean(msm, clauses)
    }

    /// Booleans one in the other, each beside a clause or two.
    fn deep(&mut self) -> Node {
        let booleans = self.random.within(*DEPTHS.start(), *DEPTHS.end());
        let mut below = self.term();
        for level in 0..booleans {
            // a phrase's terms take one level more
            let beside = match self.random.below(4) {
                0 if level > 0 => self.childless(),
                1 if level > 1 => weighted(self.random.pick(&BY_ORDER), self.term()),
                _ => term(self.core()),
            };
            let of_below = [MUST, MUST, SHOULD, SHOULD, FILTER, MUST_NOT];
            let of_below = self.random.pick(&of_below);
            let of_beside = match of_below {
                MUST_NOT => MUST,
                _ => self.random.pick(&OCCURRENCES),
            };
            let mut clauses = vec![below.occurring(of_below), beside.occurring(of_beside)];
            if self.random.once_in(3) {
                let occurrence = self.random.pick(&[SHOULD, MUST_NOT]);
                clauses.push(self.term().occurring(occurrence));
            }
            self.random.shuffle(&mut clauses);
            below = boolean(self.random.pick(&[0, 0, 0, 1, 2]), clauses);
        }
        below
    }

    /// 64 Shoulds: about as many as are needed have the core, or all; most others are rare.
    fn wide(&mut self) -> Node {
        let least = self.random.pick(&LEASTS);
        let core = self.random.pick(&[least - 1, least, least + 1, CLAUSES]);
        let mut clauses = Vec::new();
        for number in 0..CLAUSES {
            let clause = match self.index.others.first() {
                _ if number < core => term(self.core()),
                _ if self.random.once_in(40) => self.childless(),
                None => match_none(),
                Some(rarest) => term(*rarest),
            };
            clauses.push(clause.should());
        }
        self.random.shuffle(&mut clauses);
        let wide = boolean(least, clauses);
        match self.random.below(3) {
            0 => boolean(0, [wide.must(), self.childless().should()]),
            _ => wide,
        }
    }

    /// Musts and Shoulds of the core whose sum shows where the Shoulds' joined it.
    fn joined(&mut self) -> Node {
        let mut weights = BY_ORDER;
        self.random.shuffle(&mut weights);
        let musts = self.random.within(1, 2) as usize;
        let mut clauses = Vec::new();
        for (number, bits) in weights.into_iter().enumerate() {
            let scored = match self.random.below(4) {
                0 => match_all(),
                1 => boolean(0, [term(self.core()).must(), self.term().should()]),
                _ => term(self.core()),
            };
            let clause = weighted(bits, scored);
            clauses.push(match number < musts {
                true => clause.must(),
                false => clause.should(),
            });
        }
        if self.random.once_in(2) {
            clauses.push(self.clause(2).occurring(self.random.pick(&OCCURRENCES)));
        }
        self.random.shuffle(&mut clauses);
        boolean(self.random.pick(&[0, 0, 1]), clauses)
    }

    /// Phrases of every occurrence beside other clauses.
    fn phrases(&mut self) -> Node {
        let mut clauses = Vec::new();
        for _ in 0..self.random.within(1, 3) {
            let occurrence = self.random.pick(&OCCURRENCES);
            clauses.push(self.phrase().occurring(occurrence));
        }
        for _ in 0..self.random.within(0, 2) {
            let occurrence = self.random.pick(&[MUST, MUST, SHOULD, FILTER]);
            clauses.push(term(self.core()).occurring(occurrence));
        }
        self.random.shuffle(&mut clauses);
        boolean(self.random.pick(&[0, 0, 0, 1, 2]), clauses)
    }

    /// A Boolean of which the required clause, or the Should, is often an only child.
    pub fn only_children(&mut self, levels: u32) -> Node {
        let required = [[1, 0], [1, 0], [2, 0], [3, 0], [3, 0], [0, 1], [1, 1]];
        let [musts, filters] = self.random.pick(&required);
        let shoulds = self.random.pick(&[0, 1, 1, 2, 3]);
        let nots = u32::from(self.random.once_in(8));
        let mut clauses = Vec::new();
        for (number, occurrence) in [musts, shoulds, nots, filters].into_iter().zip(OCCURRENCES) {
            for _ in 0..number {
                let clause = match occurrence {
                    MUST_NOT => self.term(),
                    _ => self.only_child(levels),
                };
                clauses.push(clause.occurring(occurrence));
            }
        }
        self.random.shuffle(&mut clauses);
        boolean(self.random.pick(&[0, 0, 0, 1]), clauses)
    }

    /// A clause of such a Boolean; where no more records may be made, a term.
    fn only_child(&mut self, levels: u32) -> Node {
        if self.records < CLAUSE {
            return term(self.core());
        }
        self.records -= CLAUSE;
        let weight = self.random.pick(&BY_ORDER);
        match self.random.below(16) {
            0..=3 if levels > 1 => self.only_children(levels - 1),
            4..=6 => self.phrase(),
            7 => weighted(weight, term(self.core())),
            8 => weighted(weight, match_all()),
            9 | 10 => boolean(0, [weighted(weight, term(self.core())).must()]),
            11 => self.range(),
            12 => self.term(),
            _ => term(self.core()),
        }
    }
}
