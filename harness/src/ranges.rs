//! Cases aimed at the bitmaps of ranges, which have 32 documents a word: columns that fill their last
//! word and columns that do not, with values at the ends of the ranges and on either side of them.
use crate::case::Case;
use crate::catalogue::Catalogue;
use crate::failed::{failed, ordered};
use crate::query::*;
use crate::random::Random;

/// The documents of a word.
pub const WORD: u32 = 32;

/// Around one to four words, and many words.
pub const SIZES: [u32; 14] = [1, 31, 32, 33, 63, 64, 65, 95, 96, 97, 127, 128, 129, 300];

const OCCURRENCES: [u32; 4] = [MUST, SHOULD, MUST_NOT, FILTER];

/// Bits of values that a column may hold: at the ends of its kind, around 0, and where the low half
/// of the bits ends. f64 of either sign, NaN too.
pub fn patterns(kind: u32) -> Vec<u64> {
    let half = 1 << 32;
    if kind == 0 {
        let whole = [i64::MIN, -half, -2, -1, 0, 1, half - 1, half, i64::MAX];
        return whole.map(|value| value as u64).to_vec();
    }
    let [one, infinity] = [1.0, f64::INFINITY].map(f64::to_bits);
    let above = [
        0,
        1,
        half as u64 - 1,
        half as u64,
        one,
        infinity - 1,
        infinity,
        infinity + 1,
    ];
    [above, above.map(|bits| bits | 1 << 63)].concat()
}

/// Each range between two of these, over a column of them all.
pub fn every() -> Vec<Case> {
    let mut all = Vec::new();
    for kind in [0, 1] {
        let ranges = ranges(&patterns(kind));
        for n in [31, 32, 33, 64, 65] {
            let index = index(kind, n);
            all.extend(ranges.iter().map(|range| index.case(n, 7, range)));
        }
    }
    all
}

/// Each range of the first column between two of some values.
fn ranges(values: &[u64]) -> Vec<Node> {
    let mut all = Vec::new();
    for kinds in 0..9 {
        let given = |end: u32| if end == 0 { &[0] } else { values };
        for lower in given(kinds % 3) {
            let upper = given(kinds / 3).iter();
            all.extend(upper.map(|upper| range(0, kinds, *lower, *upper)));
        }
    }
    all
}

/// A column of all the patterns, again and again; every seventh document has the bits alone.
fn index(kind: u32, n: u32) -> Catalogue {
    let mut words = Vec::new();
    for (document, bits) in (0..n).zip(patterns(kind).iter().cycle()) {
        let present = u32::from(document % 7 != 3);
        words.extend([present, *bits as u32, (bits >> 32) as u32]);
    }
    let mut index = Catalogue::new(n);
    index.column_of_words(kind, &words);
    index
}

/// The case of a seed; no end of a range is NaN.
pub fn case(seed: u64) -> Case {
    let mut random = Random::new(seed);
    let n = random.pick(&SIZES);
    let mut maker = Maker {
        catalogue: Catalogue::new(n),
        n,
        columns: vec![],
        random: &mut random,
    };
    for _ in 0..maker.random.within(1, 2) {
        maker.column();
    }
    maker.live();
    let order = maker.order();
    let k = maker.random.pick(&[1024, 1024, 1024, 3]);
    let t = maker.random.pick(&[0, 9, u32::MAX]);
    maker.catalogue.case(k, t, &order)
}

struct Maker<'a> {
    random: &'a mut Random,
    catalogue: Catalogue,
    n: u32,
    /// the kind of each column, and values around which its own lie
    columns: Vec<(u32, Vec<u64>)>,
}

impl Maker<'_> {
    fn pattern(&mut self, kind: u32) -> u64 {
        match self.random.once_in(8) {
            true => self.random.word(),
            false => self.random.pick(&patterns(kind)),
        }
    }

    /// One of some values, or one beside it.
    fn near(&mut self, values: &[u64]) -> u64 {
        let value = self.random.pick(values);
        value.wrapping_add(self.random.pick(&[0, 0, 1, u64::MAX]))
    }

    /// Values as they come, or one of its own for the first or the last documents of the words.
    fn column(&mut self) {
        let (kind, number) = (self.random.below(2), self.random.within(1, 3));
        let values: Vec<_> = (0..number).map(|_| self.pattern(kind)).collect();
        let one_in = self.random.pick(&[2, 8, 1000]);
        let lone = self.random.pick(&[None, None, Some(0), Some(WORD - 1)]);
        let mut words = Vec::new();
        for document in 0..self.n {
            let present = u32::from(!self.random.once_in(one_in));
            let bits = match lone {
                None => self.near(&values),
                Some(place) if document % WORD == place => values[0],
                Some(_) => self.near(&values[values.len() - 1..]),
            };
            words.extend([present, bits as u32, (bits >> 32) as u32]);
        }
        self.catalogue.column_of_words(kind, &words);
        self.columns.push((kind, values));
    }

    /// None dead, or some.
    fn live(&mut self) {
        if self.random.once_in(2) {
            return;
        }
        for document in 0..self.n {
            if self.random.once_in(8) {
                self.catalogue.kill(document);
            }
        }
    }

    /// A range alone, or some in a Boolean.
    fn order(&mut self) -> Node {
        if !self.random.once_in(3) {
            return self.range();
        }
        let mut clauses = Vec::new();
        for _ in 0..self.random.within(1, 3) {
            let occurrence = self.random.pick(&OCCURRENCES);
            clauses.push(self.range().occurring(occurrence));
        }
        if self.random.once_in(2) {
            clauses.push(match_all().must());
        }
        boolean(self.random.below(2), clauses)
    }

    /// A range of any kinds; where both ends are given, the lower is the lesser one more often.
    fn range(&mut self) -> Node {
        let column = self.random.below(self.columns.len() as u32);
        let kinds = self.random.below(9);
        let mut ends = [(); 2].map(|()| self.end(column));
        if !self.random.once_in(4) {
            let kind = self.columns[column as usize].0;
            ends.sort_by(|one, other| ordered(kind, *one, *other));
        }
        let given = |end: u32, bits| if end == 0 { 0 } else { bits };
        let [lower, upper] = [given(kinds % 3, ends[0]), given(kinds / 3, ends[1])];
        range(column, kinds, lower, upper)
    }

    /// Mostly a value of the column, or one beside it.
    fn end(&mut self, column: u32) -> u64 {
        let (kind, values) = self.columns[column as usize].clone();
        loop {
            let bits = match self.random.once_in(4) {
                true => self.pattern(kind),
                false => self.near(&values),
            };
            if !failed(kind, bits) {
                return bits;
            }
        }
    }
}
