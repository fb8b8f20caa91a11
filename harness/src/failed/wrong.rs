//! Wrong readings of request 2026-03, as libraries made of the judge of refusals and the Rust: what a
//! reading makes of each range is given to the Rust as a column of its own.
use super::{Range, between, ends, failed, failed_end, present};
use crate::case::Case;
use crate::query::*;

#[derive(Clone, Copy, Debug, PartialEq, Eq)]
pub enum Reading {
    /// the request's own
    Right,
    /// NaN is ordered like all else
    Before,
    /// only quiet NaNs are shut out
    Quiet,
    /// only signalling ones
    Signalling,
    /// only those without a sign
    Positive,
    /// only those with a sign
    Negative,
    /// +infinity is shut out too
    Infinity,
    /// −infinity is
    MinusInfinity,
    /// the patterns of NaN are shut out of i64 columns too
    Whole,
    /// NaN values are listed where both ends are unbounded
    EndGiven,
    /// absent values are listed where both ends are unbounded and their bits are no NaN
    Absent,
    /// NaN ends are ordered like all else
    EndsOrdered,
    /// a NaN lower end lists what the upper end allows
    LowerOpen,
    /// a NaN upper end lists what the lower end allows
    UpperOpen,
    /// a NaN end that is excluded is ordered like all else
    IncludedEnds,
    /// NaN values between the ends count in the cost
    Counted,
    /// with a NaN end, what lies between the ends counts in the cost
    EndCounted,
    /// a range with a NaN end has no scorer
    NoScorer,
}

/// Every wrong one.
pub const WRONG: [Reading; 17] = [
    Reading::Before,
    Reading::Quiet,
    Reading::Signalling,
    Reading::Positive,
    Reading::Negative,
    Reading::Infinity,
    Reading::MinusInfinity,
    Reading::Whole,
    Reading::EndGiven,
    Reading::Absent,
    Reading::EndsOrdered,
    Reading::LowerOpen,
    Reading::UpperOpen,
    Reading::IncludedEnds,
    Reading::Counted,
    Reading::EndCounted,
    Reading::NoScorer,
];

/// In a range's own column: a document that it lists, and one that only its cost counts.
const LISTED: u64 = 1;
const COUNTED: u64 = 2;

impl Reading {
    /// The case that asks the Rust for what this reading makes of an accepted one.
    pub fn of(self, case: &Case) -> Case {
        let root = Node::decode(&case.query).expect("an accepted query");
        let mut read = Case {
            columns: vec![],
            values: vec![],
            ..case.clone()
        };
        read.query = self.node(case, &root, &mut read).words();
        read
    }

    fn node(self, case: &Case, node: &Node, read: &mut Case) -> Node {
        if node.kind == RANGE {
            let own = self.range(case, node.values, read);
            return own.occurring(node.occurrence);
        }
        let below = node.children.iter();
        Node {
            children: below.map(|child| self.node(case, child, read)).collect(),
            ..node.clone()
        }
    }

    fn range(self, case: &Case, range: Range, read: &mut Case) -> Node {
        let kind = case.columns[range[0] as usize];
        if self == Reading::NoScorer && failed_end(kind, range) {
            return match_none();
        }
        let column = read.columns.len() as u32;
        let mut own = vec![[0; 3]; case.n as usize];
        for (document, value) in self.present(case, range) {
            if self.lists(kind, range, value) {
                own[document as usize] = [1, LISTED as u32, 0];
            } else if self.counts(kind, range, value) {
                own[document as usize] = [1, COUNTED as u32, 0];
            }
        }
        read.columns.push(0);
        read.values.extend(own.as_flattened());
        let counted = crate::query::range(column, 4, LISTED, COUNTED);
        let beside = crate::query::range(column, 4, COUNTED, COUNTED);
        boolean(0, [counted.must(), beside.must_not()])
    }

    /// The values that are taken for present.
    fn present(self, case: &Case, range: Range) -> Vec<(u32, u64)> {
        if self == Reading::Absent && range[1] == 0 {
            let mut all = case.clone();
            all.values.chunks_mut(3).for_each(|value| value[0] = 1);
            return present(&all, range[0]).collect();
        }
        present(case, range[0]).collect()
    }

    /// Whether bits are taken for a failed reading.
    fn shuts_out(self, kind: u32, bits: u64) -> bool {
        let (nan, quiet, sign) = (failed(kind, bits), bits >> 51 & 1, bits >> 63);
        let number = |number: f64| kind == 1 && bits == number.to_bits();
        match self {
            Reading::Before => false,
            Reading::Quiet => nan && quiet == 1,
            Reading::Signalling => nan && quiet == 0,
            Reading::Positive => nan && sign == 0,
            Reading::Negative => nan && sign == 1,
            Reading::Infinity => nan || number(f64::INFINITY),
            Reading::MinusInfinity => nan || number(f64::NEG_INFINITY),
            Reading::Whole => f64::from_bits(bits).is_nan(),
            _ => nan,
        }
    }

    fn lists(self, kind: u32, range: Range, value: u64) -> bool {
        let shut = |end: (u32, u64)| end.0 != 0 && self.shuts_out(kind, end.1);
        let [lower, upper] = ends(range);
        let [no_lower, no_upper] = [lower, upper].map(shut);
        let mut asked = range;
        let by_end = match self {
            Reading::EndsOrdered => false,
            Reading::LowerOpen if no_lower => {
                asked[1] -= lower.0;
                no_upper
            }
            Reading::UpperOpen if no_upper => {
                asked[1] -= 3 * upper.0;
                no_lower
            }
            Reading::IncludedEnds => no_lower && lower.0 == 1 || no_upper && upper.0 == 1,
            _ => no_lower || no_upper,
        };
        let everywhere = self == Reading::EndGiven && range[1] == 0;
        let by_value = self.shuts_out(kind, value) && !everywhere;
        !by_value && !by_end && between(kind, asked, value)
    }

    /// Whether a value that is not listed counts in the cost.
    fn counts(self, kind: u32, range: Range, value: u64) -> bool {
        let by_end = match self {
            Reading::Counted => !failed_end(kind, range),
            Reading::EndCounted => failed_end(kind, range),
            _ => false,
        };
        by_end && between(kind, range, value)
    }
}
