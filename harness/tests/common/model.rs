//! Takes, score and cost of a tree as document 01 words them; and the slips that a port could make
//! there. The Rust is asked only for the lengths of norm bytes.
use super::leaves::{Scores, leaf_scores, runs};
use super::plain::between;
use harness::case::Case;
use harness::query::*;

#[derive(Clone, Copy, Debug, PartialEq, Eq)]
pub enum Slip {
    None,
    /// Must scores added in clause order
    ClauseOrder,
    /// scores added in f32
    Single,
    /// max(1, msm) beside a Must or Filter too
    OneAtLeast,
    /// the group first among equal costs
    GroupFirst,
    /// the Must sum narrowed before the group joins
    NarrowedBeforeGroup,
    /// each Should of a group added as a requirement of its own
    NoGroup,
    /// Should scores added by cost
    ShouldsByCost,
    /// required and optional sums added without narrowing them first
    NotNarrowedBetween,
    /// equal costs in reverse clause order
    TiesReversed,
    /// a disjunction costs the most of its clauses
    CostOfMost,
    /// a conjunction costs the sum of its clauses
    CostOfSum,
    /// Filters left out of a conjunction's cost
    FiltersFree,
    /// Shoulds at msm 0 count in the cost
    ShouldsCount,
    /// a range costs its column's documents
    RangeOfAll,
    /// NaN values between a range's ends count in its cost
    FailedCounted,
    /// a phrase costs the sum of its leaves' postings
    PhraseOfSum,
    /// dead documents cost nothing
    LiveOnly,
    /// a Should that takes nothing costs nothing
    NothingFree,
    /// a Boolean with too few Shoulds still costs them
    NeverCosts,
    /// position − offset unsigned: starts below 0 are lost
    StartsUnsigned,
    /// a phrase's idf added in the order of its offsets
    IdfByOffset,
    /// norm byte 0 in a field without norms
    NoNormsZero,
    /// norm bytes looked up by field number
    NormsByField,
    /// lengths rounded down to an f32
    LengthCutOff,
}

/// Each slip, and how many in a thousand generated cases have to show it.
pub const SLIPS: [(Slip, u64); 24] = [
    (Slip::ClauseOrder, 80),
    (Slip::Single, 150),
    (Slip::OneAtLeast, 200),
    (Slip::GroupFirst, 10),
    (Slip::NarrowedBeforeGroup, 20),
    (Slip::NoGroup, 20),
    (Slip::ShouldsByCost, 20),
    (Slip::NotNarrowedBetween, 30),
    (Slip::TiesReversed, 20),
    (Slip::CostOfMost, 10),
    (Slip::CostOfSum, 10),
    (Slip::FiltersFree, 2),
    (Slip::ShouldsCount, 2),
    (Slip::RangeOfAll, 2),
    (Slip::FailedCounted, 2),
    (Slip::PhraseOfSum, 2),
    (Slip::LiveOnly, 2),
    (Slip::NothingFree, 2),
    (Slip::NeverCosts, 2),
    (Slip::StartsUnsigned, 10),
    (Slip::IdfByOffset, 2),
    (Slip::NoNormsZero, 50),
    (Slip::NormsByField, 20),
    (Slip::LengthCutOff, 2),
];

/// A node with the boost that reaches it.
pub struct Tree<'a> {
    case: &'a Case,
    node: &'a Node,
    reaching: f32,
    live: &'a [bool],
    children: Vec<Tree<'a>>,
}

impl<'a> Tree<'a> {
    /// `live` has an entry for each document.
    pub fn of(case: &'a Case, node: &'a Node, reaching: f32, live: &'a [bool]) -> Tree<'a> {
        let passed = |child: &Node| match (node.kind, child.occurrence) {
            (BOOST, _) => reaching * f32::from_bits(node.values[0]),
            (CONSTANT_SCORE, _) | (BOOLEAN, MUST_NOT | FILTER) => 0.0,
            _ => reaching,
        };
        let below = |child| Tree::of(case, child, passed(child), live);
        Tree {
            case,
            node,
            reaching,
            live,
            children: node.children.iter().map(below).collect(),
        }
    }

    pub fn scores(&self, slip: Slip) -> Scores {
        match self.node.kind {
            BOOST => self.children[0].scores(slip),
            CONSTANT_SCORE => {
                let taken = self.children[0].scores(slip).into_iter();
                taken.map(|score| score.map(|_| self.reaching)).collect()
            }
            BOOLEAN => {
                let clauses = self.clauses(slip);
                let score = |d| boolean_score(&clauses, self.node.values[0], d, slip);
                (0..self.live.len()).map(score).collect()
            }
            _ => leaf_scores(self.case, self.node, self.reaching, slip),
        }
    }

    fn clauses(&self, slip: Slip) -> Vec<Clause> {
        let clause = |child: &Tree| Clause {
            occurrence: child.node.occurrence,
            cost: child.cost(slip),
            scores: child.scores(slip),
        };
        self.children.iter().map(clause).collect()
    }

    /// The cost of each record in turn, `None` where it has no scorer (a PhraseTerm has none).
    pub fn costs(&self) -> Vec<Option<u64>> {
        let below = self.children.iter().flat_map(Tree::costs);
        let own = self.cost(Slip::None);
        std::iter::once(own).chain(below).collect()
    }

    fn cost(&self, slip: Slip) -> Option<u64> {
        match self.node.kind {
            MATCH_NONE | PHRASE_TERM => None,
            BOOST | CONSTANT_SCORE => self.children[0].cost(slip),
            BOOLEAN => self.boolean_cost(slip),
            _ => self.leaf_cost(slip),
        }
    }

    fn leaf_cost(&self, slip: Slip) -> Option<u64> {
        let runs = runs(self.case, self.node);
        let counted = |d: &&u32| slip != Slip::LiveOnly || self.live[**d as usize];
        let sizes = runs
            .iter()
            .map(|run| run.iter().filter(counted).count() as u64);
        match self.node.kind {
            TERM | PHRASE if runs.iter().any(Vec::is_empty) => None,
            PHRASE if slip == Slip::PhraseOfSum => Some(sizes.sum()),
            RANGE if slip == Slip::RangeOfAll => Some(self.live.len() as u64),
            RANGE if slip == Slip::FailedCounted => {
                let counted = |d: &u32| between(self.case, self.node.values, *d);
                Some((0..self.case.n).filter(counted).count() as u64)
            }
            _ => sizes.min(),
        }
    }

    fn boolean_cost(&self, slip: Slip) -> Option<u64> {
        let mut required = Vec::new();
        let mut optional = Vec::new();
        let mut any = false;
        for child in &self.children {
            let cost = child.cost(slip);
            match child.node.occurrence {
                MUST | FILTER => {
                    any = true;
                    let free = slip == Slip::FiltersFree && child.node.occurrence == FILTER;
                    required.extend(Some(cost?).filter(|_| !free));
                }
                SHOULD if slip == Slip::NothingFree && child.takes_nothing() => {}
                SHOULD => optional.extend(cost),
                _ => {}
            }
        }
        let group = group_cost(optional.iter().copied(), slip);
        let msm = self.node.values[0];
        let need = if any { msm } else { msm.max(1) };
        if optional.len() < need as usize {
            return (slip == Slip::NeverCosts).then_some(group);
        }
        let counts = need > 0 || (slip == Slip::ShouldsCount && !optional.is_empty());
        required.extend(counts.then_some(group));
        match slip {
            Slip::CostOfSum => Some(required.iter().sum()),
            _ => Some(required.into_iter().min().unwrap_or(0)),
        }
    }

    fn takes_nothing(&self) -> bool {
        let scores = self.scores(Slip::None);
        scores.iter().all(Option::is_none)
    }
}

fn group_cost(costs: impl Iterator<Item = u64>, slip: Slip) -> u64 {
    match slip {
        Slip::CostOfMost => costs.max().unwrap_or(0),
        _ => costs.sum(),
    }
}

struct Clause {
    occurrence: u32,
    cost: Option<u64>,
    scores: Scores,
}

impl Clause {
    fn required(&self) -> bool {
        matches!(self.occurrence, MUST | FILTER)
    }
}

fn boolean_score(clauses: &[Clause], msm: u32, document: usize, slip: Slip) -> Option<f32> {
    let of = |occurrence| clauses.iter().filter(move |c| c.occurrence == occurrence);
    let takes = |clause: &&Clause| clause.scores[document].is_some();
    let any = clauses.iter().any(Clause::required);
    let need = match any && slip != Slip::OneAtLeast {
        true => msm,
        false => msm.max(1),
    };
    let all = clauses.iter().filter(|c| c.required()).all(|c| takes(&c));
    let enough = of(SHOULD).filter(takes).count() >= need as usize;
    if !all || !enough || of(MUST_NOT).any(|c| takes(&c)) {
        return None;
    }
    let part = |c: &Clause| (c.cost.unwrap(), c.scores[document].unwrap());
    let musts: Vec<_> = of(MUST).map(part).collect();
    let shoulds: Vec<_> = of(SHOULD).filter(takes).map(part).collect();
    let free = |c: &&Clause| slip == Slip::NothingFree && c.scores.iter().all(Option::is_none);
    let costs = of(SHOULD).filter(|c| !free(c)).filter_map(|c| c.cost);
    let cost = group_cost(costs, slip);
    Some(match msm > 0 || !any {
        true => with_group(musts, &shoulds, cost, slip),
        false => with_optional(musts, shoulds, slip),
    })
}

/// A cost and a score.
type Part = (u64, f32);

fn with_group(mut parts: Vec<Part>, shoulds: &[Part], cost: u64, slip: Slip) -> f32 {
    let group = narrowed(should_sum(shoulds.to_vec(), slip));
    match slip {
        Slip::NarrowedBeforeGroup => {
            let required = narrowed(must_sum(parts, slip));
            return narrowed(f64::from(required) + f64::from(group));
        }
        Slip::NoGroup => parts.extend(shoulds),
        Slip::GroupFirst => parts.insert(0, (cost, group)),
        _ => parts.push((cost, group)),
    }
    narrowed(must_sum(parts, slip))
}

fn with_optional(musts: Vec<Part>, shoulds: Vec<Part>, slip: Slip) -> f32 {
    let [required, optional] = [must_sum(musts, slip), should_sum(shoulds, slip)];
    match slip {
        Slip::NotNarrowedBetween => narrowed(required + optional),
        _ => narrowed(f64::from(narrowed(required)) + f64::from(narrowed(optional))),
    }
}

fn must_sum(mut parts: Vec<Part>, slip: Slip) -> f64 {
    if slip == Slip::TiesReversed {
        parts.reverse();
    }
    if slip != Slip::ClauseOrder {
        parts.sort_by_key(|(cost, _)| *cost);
    }
    sum(&parts, slip)
}

fn should_sum(mut parts: Vec<Part>, slip: Slip) -> f64 {
    if slip == Slip::ShouldsByCost {
        parts.sort_by_key(|(cost, _)| *cost);
    }
    sum(&parts, slip)
}

fn sum(parts: &[Part], slip: Slip) -> f64 {
    match slip {
        Slip::Single => f64::from(parts.iter().fold(0.0, |sum, (_, score)| sum + score)),
        _ => parts
            .iter()
            .fold(0.0, |sum, (_, score)| sum + f64::from(*score)),
    }
}

fn narrowed(sum: f64) -> f32 {
    sum as f32
}
