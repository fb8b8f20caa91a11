//! Search beside the Rust in cases aimed at its windows of 64 documents, and what these cases reach.
//!
//! Wrong forms of the windows were built without proof and run: the first case of
//! `cases_beside_the_rust` that shows each, and of the first 5,000 of `generated_cases` in
//! tests/differential.rs.
//!
//! | what is wrong                                                                 | here | there |
//! |-------------------------------------------------------------------------------|-----:|------:|
//! | Shoulds that none is needed of are not asked: their bits of an earlier window |    9 |    32 |
//! | Shoulds after all that is wanted matched are not asked                        |    3 |     1 |
//! | a Boolean's bits are not stored                                               |    6 |     7 |
//! | everything's bits are not stored                                              |   28 |    15 |
//! | nor the bits of places 32 to 63                                               |    3 |     7 |
//! | half a plane of a phrase's frequencies is not stored                          |    8 |     1 |
//! | a run that lags is not moved to the window                                    |   10 |  1772 |
//! | where a term's postings of the window begin is not stored                     |    7 |  1772 |
//! | a term's postings of the window begin with the run's                          |    7 |       |
//! | so do those of a phrase's terms                                               |    8 |  1772 |
//! | a posting's rank among the wanted documents                                   |    3 |     7 |
//! | next is one document too far                                                  |  243 |       |
//! | next is one posting too far                                                   |   22 |   261 |
//! | next of Shoulds is the largest of theirs                                      |   22 |  1235 |
//! | so where they are counted                                                     |  203 |       |
//! | next of everything is a window too far                                        |   78 |   261 |
//! | the next window does not begin at a multiple of 64                            |   32 |       |
//! | a window is left out                                                          |    7 |   261 |
//! | what is wanted is collected, not what matches                                 |    7 |     2 |
//! | documents from N on are not cut off                                           |  155 |    15 |
//! | nor where 63 are left                                                         |  266 |  1596 |
//! | the live word of the window before                                            |   10 |   850 |
//! | no live word                                                                  |    3 |     2 |
//! | the prohibited are not taken away                                             |   14 |    16 |
//! | only those that are terms                                                     |   51 |   130 |
//! | only the first                                                                |   52 |   177 |
//! | a window of 63 documents                                                      |    9 |   171 |
//! | planes that count to 63                                                       |    7 |       |
//! | none matches where 64 are needed                                              |  113 |       |
//! | one more than is needed                                                       |   58 |    14 |
//! | only terms are counted                                                        |  134 |    58 |
//! | none needed taken as one                                                      |    6 |     4 |
//! | two needed taken as one                                                       |   78 |    14 |
//! | phrases are not asked in the last pass                                        |   18 |    19 |
//! | a phrase matches where all its terms stand                                    |    4 |     5 |
//! | a phrase's first term alone is asked                                          |    8 |     5 |
//! | a frequency of 2 is taken as 1                                                |    8 |     1 |
//! | 3 and more as 2                                                               |    8 |   203 |
//! | 4 and more as 3                                                               |    9 |   203 |
//! | the Shoulds' sum joins as the first                                           |   10 |     2 |
//! | as the last                                                                   |   82 |    21 |
//! | never after the required sum                                                  |   11 |    27 |
//! | always after it                                                               |   82 |     2 |
//! | the required sum is not narrowed before several Shoulds' joins it             |   60 |   823 |
//! | a Boolean's sum is not narrowed                                               |   66 |    49 |
//! | a Should is scored where it does not match                                    |    3 |     7 |
//! | the norm of a place, not of the document                                      |    7 |  2411 |
//! | the sum of the place below                                                    |    3 |     2 |
//!
//! No answer changes where phrases are asked in the first pass (it only costs time) or where Filters
//! are scored (their scores are 0).
//!
//! The same of only children, whose scores join as they are; the first column is the first case of
//! `only_children_beside_the_rust`.
//!
//! | what is wrong                                                     | only | here | there |
//! |-------------------------------------------------------------------|-----:|-----:|------:|
//! | several children are taken for an only one                        |    4 |   28 |    27 |
//! | an only required child's score is that of a Boolean with Shoulds  |    4 |   66 |    32 |
//! | an only required child's score is left out                        |    9 |  263 |   171 |
//! | the sum that it joins is narrowed                                 |   96 |      |       |
//! | the required sum is not narrowed before an only Should's joins it |   20 |   30 |    27 |
//! | the Shoulds' sum is not narrowed before an only Must's joins it   |   96 |   54 |   247 |
//! | an only Should joins after the required sum, whatever is needed   |    5 |   82 |     2 |
//! | it is scored as a required clause                                 |    3 |    9 |    78 |
//! | a required clause is scored in its place                          |    3 |    9 |    78 |
//! | it is scored twice                                                |   27 |   75 |    78 |
//! | it is left out                                                    |    3 |    9 |    78 |
//! | it is not asked: its bits of an earlier window                    |    3 |    9 |    78 |
//! | Shoulds beside an only Must are scored as required clauses        |    4 |   28 |    32 |
//! | they are not asked                                                |    4 |   28 |    32 |
//! | the only Must is left out                                         |   22 |   54 |    32 |
//!
//! No answer changes where an only child's score is narrowed all the same.
#![cfg_attr(not(all(oracle, linked)), allow(unused))]
#[macro_use]
mod common;

use common::reach::Reach;
use common::taken::Taken;
use common::{Seed, each, plain};
use harness::border::Entries;
use harness::case::Case;
#[cfg(oracle)]
use harness::compare::Compare;
#[cfg(oracle)]
use harness::expect::Right;
use harness::query::*;
use harness::random::Random;
use harness::refusal::order;
use harness::windows::{self, SIZES, WINDOW};

const CASES: u64 = 40_000;

/// Of Booleans with only children.
const ONLY_CHILDREN: u64 = 10_000;

/// Of these cases of either sort it is counted what they reach.
const COUNTED: u64 = 8000;

#[test]
#[cfg_attr(
    not(all(oracle, linked)),
    ignore = "the library or the Rust source is absent"
)]
fn cases_beside_the_rust() {
    with_library!(library, {
        each(CASES, |seed| beside(library, &windows::case(seed), seed));
    });
}

#[test]
#[cfg_attr(
    not(all(oracle, linked)),
    ignore = "the library or the Rust source is absent"
)]
fn only_children_beside_the_rust() {
    with_library!(library, {
        each(ONLY_CHILDREN, |seed| {
            beside(library, &windows::of_only_children(seed), seed);
        });
    });
}

#[cfg(oracle)]
fn beside(entries: &dyn Entries, case: &Case, seed: u64) {
    let mut random = Random::new(!seed);
    let mut calls = Compare::new(entries, case, &mut random);
    assert_eq!(calls.right.judge.order, 0);
    calls.asked();
}

/// The windows of some documents, ascending.
fn windows_of(documents: &[u32]) -> Vec<u32> {
    let mut windows: Vec<_> = documents.iter().map(|d| d / WINDOW).collect();
    windows.dedup();
    windows
}

/// Whether a whole window lies between two of them.
fn leaps(windows: &[u32]) -> bool {
    windows.windows(2).any(|two| two[0] + 1 < two[1])
}

fn lent(case: &Case, root: &Taken, reach: &mut Reach) {
    for n in SIZES {
        reach.note(format!("N {n}"), case.n == n);
    }
    let live: Vec<_> = (0..case.n).filter(|d| case.is_live(*d)).collect();
    let (alive, taken) = (windows_of(&live), root.list());
    let dead = |d: &u32| !case.is_live(*d);
    reach.note("no live words", case.live.is_empty());
    reach.note("everything is dead", live.is_empty() && !taken.is_empty());
    let killed = |d: &u32| !live.is_empty() && !alive.contains(&(d / WINDOW));
    reach.note("a dead window has matches", taken.iter().any(killed));
    for (name, place) in [("first", 0), ("last", WINDOW - 1)] {
        let mut at = taken.iter().filter(|d| *d % WINDOW == place);
        let has = at.clone().any(|d| case.is_live(*d));
        reach.note(format!("a match at a window's {name} place"), has);
        let has = at.any(|d| dead(d) && !killed(d));
        reach.note(format!("a dead match at a window's {name} place"), has);
    }
    let matches: Vec<_> = taken.into_iter().filter(|d| !dead(d)).collect();
    let windows = windows_of(&matches);
    reach.note("matches in three windows", windows.len() > 2);
    reach.note(
        "matches in one window of several",
        case.n > WINDOW && windows.len() == 1,
    );
    reach.note("a window without matches between", leaps(&windows));
    reach.note(
        "the last document matches",
        matches.last() == Some(&(case.n - 1)),
    );
    let (count, k, t) = (matches.len() as u32, case.k, case.t);
    reach.note("k 1 below the matches", k == 1 && k < count);
    reach.note("k some below the matches", k > 1 && k < count);
    reach.note("k the matches", k == count);
    reach.note("k above the matches", k > count && count > 0);
    reach.note("t 0 below the matches", t == 0 && count > 0);
    reach.note("t some below the matches", t > 0 && t < count);
}

/// How the postings of a term stand in the windows.
fn postings(case: &Case, documents: &[u32], reach: &mut Reach) {
    let windows = windows_of(documents);
    for document in [63, 64, 65] {
        let name = format!("a posting of document {document}");
        reach.note(name, documents.contains(&document));
    }
    let at = |place: u32| documents.iter().all(|d| d % WINDOW == place);
    let several = windows.len() > 1;
    reach.note("only first places", several && at(0));
    reach.note("only last places", several && at(WINDOW - 1));
    let all = case.n.div_ceil(WINDOW) as usize;
    let one = several && windows.len() == all && documents.len() == all;
    reach.note("one posting a window", one);
    reach.note("a gap of a window", leaps(&windows));
    for (name, place) in [("first", 0), ("last", WINDOW - 1)] {
        let leap = |two: &[u32]| two[1] % WINDOW == place && leaps(&windows_of(two));
        let has = documents.windows(2).any(leap);
        reach.note(format!("a gap of a window up to a {name} place"), has);
    }
    let far = windows.windows(2).any(|two| two[0] + 3 < two[1]);
    reach.note("a gap of three windows", far);
    let one = case.n > WINDOW && windows.len() == 1 && documents.len() > 9;
    reach.note("all postings in one window", one);
    let full = documents.len() == case.n as usize;
    reach.note("a posting of every document", several && full);
}

fn ranges(case: &Case, documents: &[u32], reach: &mut Reach) {
    reach.note("an empty range", documents.is_empty());
    reach.note("a full range", documents.len() == case.n as usize);
    reach.note(
        "a range of one document",
        case.n > 1 && documents.len() == 1,
    );
    let windows = windows_of(documents);
    let whole = documents.len() == WINDOW as usize && windows.len() == 1;
    reach.note("a range of one window", whole && case.n > WINDOW);
}

/// A phrase in an order, which takes `matches`.
fn phrases(case: &Case, phrase: &Taken, matches: &[u32], reach: &mut Reach) {
    let (terms, occurrence) = (phrase.node.children.len(), phrase.node.occurrence);
    let stands = phrase.list();
    let name = format!("a phrase of {terms} of occurrence {occurrence} stands");
    if terms <= 4 {
        reach.note(name, !stands.is_empty());
    }
    let windows = windows_of(&stands);
    reach.note(
        format!("a phrase of occurrence {occurrence} in three windows"),
        windows.len() > 2,
    );
    if occurrence != MUST_NOT {
        for document in matches {
            match plain::starts(case, phrase.node, *document).len() {
                0 => reach.note("a match without its phrase", true),
                starts @ 1..=3 => reach.note(format!("a match with a phrase {starts} times"), true),
                _ => reach.note("a match with a phrase more often", true),
            }
        }
    }
}

fn booleans(case: &Case, boolean: &Taken, reach: &mut Reach) {
    let takes = boolean.documents.contains(&true);
    let count = |occurrence| boolean.of(occurrence).count();
    let [musts, shoulds, nots, filters] = [MUST, SHOULD, MUST_NOT, FILTER].map(count);
    let all = boolean.below.len();
    reach.note("only Musts", takes && musts > 1 && musts == all);
    reach.note("only Shoulds", takes && shoulds > 1 && shoulds == all);
    reach.note("only Filters", takes && filters == all);
    reach.note("only MustNots", nots > 0 && nots == all);
    let msm = boolean.node.values[0];
    for least in 0..3 {
        let beside = takes && musts > 0 && shoulds > 1 && msm == least;
        reach.note(format!("Musts and Shoulds, msm {least}"), beside);
    }
    let above = musts > 0 && shoulds > 0 && msm as usize > shoulds;
    reach.note("Musts and Shoulds, msm above", above);
    for clause in &boolean.below {
        let name = format!(
            "kind {} of occurrence {}",
            clause.node.kind, clause.node.occurrence
        );
        let shows = takes || clause.node.occurrence == MUST_NOT;
        let empty = clause.node.kind == MATCH_NONE;
        reach.note(name, empty || shows && clause.documents.contains(&true));
        let cut = clause.node.kind == MATCH_ALL && !case.n.is_multiple_of(WINDOW);
        reach.note("everything in a Boolean, N no multiple of 64", cut);
    }
    let without = |d: usize| boolean.count(MUST_NOT, d) > 0 && missed(boolean, d) == 0;
    reach.note(
        "a MustNot alone takes a document away",
        (0..case.n as usize).any(without),
    );
    lagging(boolean, reach);
    if shoulds == 64 {
        wide(case, boolean, msm, reach);
    }
}

/// How many required clauses do not take a document.
fn missed(boolean: &Taken, document: usize) -> usize {
    let required = boolean.required();
    let missed = required.iter().filter(|c| !c.documents[document]);
    missed.count()
}

/// Windows in which clauses need not be asked, before one in which they are.
fn lagging(boolean: &Taken, reach: &mut Reach) {
    let last = boolean.list().last().map_or(0, |d| d / WINDOW);
    let before = |clause: &Taken| -> Vec<u32> {
        let windows = windows_of(&clause.list());
        windows.into_iter().filter(|w| *w < last).collect()
    };
    let required: Vec<_> = boolean.required().into_iter().map(before).collect();
    let together = |window: &u32| required.iter().all(|windows| windows.contains(window));
    let apart = required.iter().flatten().any(|window| !together(window));
    reach.note("a required clause lags", last > 0 && apart);
    for (occurrence, name) in [(SHOULD, "Should"), (MUST_NOT, "MustNot")] {
        let behind = |clause: &Taken| before(clause).iter().any(|w| !together(w));
        let lags = !required.is_empty() && boolean.of(occurrence).any(behind);
        reach.note(format!("a {name} lags"), last > 0 && lags);
    }
    let windows = windows_of(&boolean.list());
    for clause in boolean.required() {
        if clause.node.kind == TERM {
            let over = leaps(&windows_of(&clause.list())) && leaps(&windows);
            reach.note("a lead leaps over a window to the next match", over);
        }
    }
}

/// 64 Shoulds.
fn wide(case: &Case, boolean: &Taken, msm: u32, reach: &mut Reach) {
    let counts: Vec<_> = (0..case.n as usize)
        .map(|document| boolean.count(SHOULD, document))
        .collect();
    for least in [1, 2, 32, 63, 64] {
        let own = msm == least;
        reach.note(
            format!("64 Shoulds, {least} of {least}"),
            own && counts.contains(&least),
        );
        let one_less = own && counts.contains(&(least - 1));
        reach.note(format!("64 Shoulds, one less than {least}"), one_less);
        reach.note(
            format!("64 Shoulds, {least} asked, 64 match"),
            own && counts.contains(&64),
        );
    }
    reach.note(
        "64 Shoulds, 65 asked, 64 match",
        msm == 65 && counts.contains(&64),
    );
}

fn tree(case: &Case, root: &Taken, reach: &mut Reach) {
    let takes = root.documents.contains(&true);
    for kind in [
        TERM,
        PHRASE,
        BOOLEAN,
        RANGE,
        MATCH_ALL,
        CONSTANT_SCORE,
        BOOST,
    ] {
        reach.note(
            format!("root of kind {kind}"),
            takes && root.node.kind == kind,
        );
    }
    reach.note("root of nothing", root.node.kind == MATCH_NONE);
    for depth in 2..=15 {
        let deep = takes && root.booleans() == depth;
        reach.note(format!("{depth} Booleans deep"), deep);
    }
    let matches: Vec<_> = matches(case, root).collect();
    for taken in root.all() {
        match taken.node.kind {
            TERM => postings(case, &taken.list(), reach),
            RANGE => ranges(case, &taken.list(), reach),
            PHRASE => phrases(case, taken, &matches, reach),
            BOOLEAN => booleans(case, taken, reach),
            _ => {}
        }
    }
}

/// A Boolean with documents at which it is scored, and whether it stands below another.
struct Scored<'a> {
    boolean: &'a Taken<'a>,
    wanted: Vec<u32>,
    place: &'static str,
}

/// The Booleans of a tree that are scored at some of the documents.
fn scored<'a>(tree: &'a Taken<'a>, wanted: &[u32], place: &'static str) -> Vec<Scored<'a>> {
    if tree.node.kind == BOOST {
        return scored(&tree.below[0], wanted, place);
    }
    let taken = wanted.iter().filter(|d| tree.documents[**d as usize]);
    let wanted: Vec<_> = taken.copied().collect();
    if tree.node.kind != BOOLEAN || wanted.is_empty() {
        return vec![];
    }
    let clauses = tree.of(MUST).chain(tree.of(SHOULD));
    let below = clauses.flat_map(|clause| scored(clause, &wanted, "below another"));
    let mut all: Vec<_> = below.collect();
    all.push(Scored {
        boolean: tree,
        wanted,
        place,
    });
    all
}

/// What scores a clause, below any Boosts.
fn sort(node: &Node) -> &'static str {
    match node.kind {
        BOOST => sort(&node.children[0]),
        TERM => "term",
        PHRASE => "phrase",
        BOOLEAN => "Boolean",
        _ => "constant",
    }
}

/// How many clauses of an occurrence there are: an only one takes documents, and of several two or
/// more do.
#[derive(Clone, Copy, PartialEq, Eq)]
enum Number {
    Zero,
    One,
    Several,
}

const MUSTS: [(&str, Number); 2] = [
    ("an only Must", Number::One),
    ("several Musts", Number::Several),
];

const SHOULDS: [(&str, Number); 3] = [
    ("no Should", Number::Zero),
    ("an only Should", Number::One),
    ("several Shoulds", Number::Several),
];

/// Musts and Filters.
const REQUIRED: [(&str, [Number; 2]); 4] = [
    ("an only Must", [Number::One, Number::Zero]),
    ("an only Filter", [Number::Zero, Number::One]),
    ("several Musts", [Number::Several, Number::Zero]),
    ("a Must and a Filter", [Number::One, Number::One]),
];

fn number(boolean: &Taken, occurrence: u32) -> Option<Number> {
    let taking = boolean.of(occurrence);
    let taking = taking.filter(|c| c.documents.contains(&true)).count();
    match (boolean.of(occurrence).count(), taking) {
        (0, _) => Some(Number::Zero),
        (1, 1) => Some(Number::One),
        (_, 2..) => Some(Number::Several),
        _ => None,
    }
}

/// A Boolean's required clauses beside its Shoulds, where the one or the other may be an only child.
fn only_children(scored: &Scored, reach: &mut Reach) {
    let Scored { boolean, place, .. } = scored;
    let numbers = [MUST, FILTER, SHOULD].map(|occurrence| number(boolean, occurrence));
    let [Some(musts), Some(filters), Some(shoulds)] = numbers else {
        return;
    };
    for (required, own) in REQUIRED {
        let name = format!("{required} {place}");
        let own = own == [musts, filters];
        beside_shoulds(scored, &name, own.then_some(shoulds), reach);
    }
    if boolean.node.values[0] == 0 && filters == Number::Zero {
        sorts_of_only_children(scored, [musts, shoulds], reach);
    }
}

/// How many Shoulds stand beside required clauses of a name, where the Boolean has such.
fn beside_shoulds(scored: &Scored, name: &str, own: Option<Number>, reach: &mut Reach) {
    let msm = scored.boolean.node.values[0];
    reach.note(format!("{name}, no Should"), own == Some(Number::Zero));
    for (shoulds, number) in &SHOULDS[1..] {
        for least in [0, 1] {
            let name = format!("{name}, {shoulds}, msm {least}");
            reach.note(name, own == Some(*number) && msm == least);
        }
    }
    let mut clauses = scored.boolean.of(SHOULD);
    let misses = |should: &Taken| {
        let mut wanted = scored.wanted.iter();
        wanted.any(|document| !should.documents[*document as usize])
    };
    let missed = own == Some(Number::One) && clauses.any(misses);
    let name = format!("{name}, a match without the only Should");
    reach.note(name, missed);
}

/// What scores an only child.
fn sorts_of_only_children(scored: &Scored, [musts, shoulds]: [Number; 2], reach: &mut Reach) {
    let of = |occurrence| scored.boolean.of(occurrence).next().map(|c| sort(c.node));
    let (must, should) = (of(MUST), of(SHOULD));
    for wanted in ["term", "phrase", "Boolean", "constant"] {
        for (beside, number) in SHOULDS {
            let own = musts == Number::One && must == Some(wanted);
            let name = format!("a {wanted} as only Must {}, {beside}", scored.place);
            reach.note(name, own && shoulds == number);
        }
        for (beside, number) in MUSTS {
            let own = shoulds == Number::One && should == Some(wanted);
            let name = format!("a {wanted} as only Should {}, {beside}", scored.place);
            reach.note(name, own && musts == number);
        }
    }
}

/// The order of an accepted case; its matches are the Rust's.
fn order_of(case: &Case) -> Node {
    assert_eq!(order(case), 0);
    let root = Node::decode(&case.query).unwrap();
    #[cfg(oracle)]
    {
        let right = Right::new(case).list;
        assert!(matches(case, &Taken::new(case, &root)).eq(right.iter().map(|hit| hit.document)));
    }
    root
}

/// The live documents that an order takes.
fn matches<'a>(case: &'a Case, root: &Taken) -> impl Iterator<Item = u32> + use<'a> {
    let taken = root.list().into_iter();
    taken.filter(|document| case.is_live(*document))
}

#[test]
fn the_windows_are_reached() {
    let mut reach = Reach::default();
    for seed in 0..COUNTED {
        let _seed = Seed(seed);
        let case = windows::case(seed);
        let root = order_of(&case);
        let root = Taken::new(&case, &root);
        lent(&case, &root, &mut reach);
        tree(&case, &root, &mut reach);
    }
    reach.each_at_least(10);
}

#[test]
fn the_only_children_are_reached() {
    let mut reach = Reach::default();
    for seed in 0..COUNTED {
        let _seed = Seed(seed);
        let case = windows::of_only_children(seed);
        let root = order_of(&case);
        let root = Taken::new(&case, &root);
        let matches: Vec<_> = matches(&case, &root).collect();
        for boolean in scored(&root, &matches, "at the root") {
            only_children(&boolean, &mut reach);
        }
    }
    reach.each_at_least(10);
}
