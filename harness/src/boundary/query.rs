//! The boundaries of the query's author, 7 to 10.
use super::{Cases, NO_AMOUNT};
use crate::query::*;

const LARGE: u32 = 0x4780_0000;
const TWO: u32 = 0x4000_0000;
const ONE: u32 = 0x3f80_0000;

pub fn add(cases: &mut Cases) {
    words(cases);
    sizes(cases);
    depths(cases);
    kinds(cases);
    occurrences(cases);
    child_counts(cases);
    leaves_and_fields(cases);
    ranges(cases);
    boosts(cases);
    unused(cases);
    products(cases);
    boosts_below(cases);
    without_positions(cases);
}

fn phrase_term() -> Node {
    phrase(0, &[(0, 0)]).children.remove(0)
}

fn of_kind(kind: u32) -> Node {
    Node {
        kind,
        ..match_all()
    }
}

/// A sound node of each kind, PhraseTerm apart.
fn each() -> [Node; 8] {
    [
        term(0),
        phrase(0, &[(0, 0)]),
        boolean(0, []),
        range(0, 0, 0, 0),
        match_all(),
        constant_score(match_all()),
        boost(ONE, match_all()),
        match_none(),
    ]
}

/// Records not whole, none, left over; children missing.
fn words(cases: &mut Cases) {
    for length in [0, 1, 8, 10, 17] {
        cases.changed(7, |c| c.query.truncate(length));
    }
    cases.changed(7, |c| c.query.push(0));
    cases.changed(7, |c| c.query.truncate(8 * 6));
    for kind in 0..=9 {
        cases.changed(7, |c| c.query.extend(of_kind(kind).words()));
    }
    for children in [0, 1, 2, 4, 64, 65, 0x8000_0000, u32::MAX] {
        cases.changed(7, |c| c.query[2] = children);
    }
    // the root's only record, and a child that stands after the end
    for node in [
        constant_score(match_all()),
        boost(ONE, match_all()),
        phrase(0, &[(0, 0)]),
    ] {
        cases.changed(7, |c| c.query = node.words()[..RECORD].to_vec());
    }
}

/// 256 and 257 records; 32 and 33 terms; 64 and 65 clauses.
fn sizes(cases: &mut Cases) {
    let group = boolean(0, vec![term(0).should(); 64]).should();
    let clauses = [vec![group; 3], vec![term(0).should(); 60]];
    let many = boolean(0, clauses.concat());
    cases.asked(0, many.clone());
    cases.asked(7, constant_score(many));
    for (number, terms) in [(7, 0), (0, 1), (0, 32), (7, 33)] {
        cases.asked(number, phrase(0, &[(0, 0)].repeat(terms)));
    }
    for (number, clauses) in [(0, 0), (0, 1), (0, 64), (7, 65)] {
        cases.asked(number, boolean(0, vec![term(0).should(); clauses]));
    }
}

/// 16 and 17 levels, of each kind with children; a phrase's terms are a level.
fn depths(cases: &mut Cases) {
    let wraps: [fn(Node) -> Node; 3] = [
        constant_score,
        |below| boost(ONE, below),
        |below| boolean(0, [below.must()]),
    ];
    for wrap in wraps {
        let deep = |above, lowest| (0..above).fold(lowest, |below, _| wrap(below));
        for (number, above) in [(0, 15), (7, 16), (7, 17)] {
            cases.asked(number, deep(above, match_all()));
        }
        for (number, above) in [(0, 14), (7, 15)] {
            cases.asked(number, deep(above, phrase(0, &[(0, 0)])));
        }
        cases.asked(0, deep(15, boolean(0, [])));
        cases.asked(7, deep(15, boolean(0, [match_all().must()])));
    }
}

/// Kinds unknown, and PhraseTerm elsewhere than below Phrase.
fn kinds(cases: &mut Cases) {
    for kind in [0, 10, 11, 0x8000_0005, u32::MAX] {
        cases.asked(7, of_kind(kind));
        cases.asked(7, boolean(0, [match_all().must(), of_kind(kind).must()]));
        cases.asked(7, constant_score(of_kind(kind)));
        cases.asked(
            7,
            Node {
                children: vec![of_kind(kind)],
                ..phrase(0, &[])
            },
        );
    }
    cases.asked(7, phrase_term());
    cases.asked(7, constant_score(phrase_term()));
    cases.asked(7, boost(ONE, phrase_term()));
    cases.asked(7, boolean(0, [phrase_term().must()]));
    for child in each() {
        cases.asked(0, child.clone());
        cases.asked(
            7,
            Node {
                children: vec![phrase_term(), child],
                ..phrase(0, &[])
            },
        );
    }
}

/// 1 to 4 below a Boolean, 0 elsewhere.
fn occurrences(cases: &mut Cases) {
    for (below, occurrence) in [
        (7, 0),
        (0, 1),
        (0, 2),
        (0, 3),
        (0, 4),
        (7, 5),
        (7, u32::MAX),
    ] {
        cases.asked(below, boolean(0, [match_all().occurring(occurrence)]));
        let elsewhere = if occurrence == 0 { 0 } else { 7 };
        cases.asked(elsewhere, match_all().occurring(occurrence));
        cases.asked(elsewhere, boolean(0, []).occurring(occurrence));
        cases.asked(elsewhere, boost(ONE, match_all().occurring(occurrence)));
        cases.asked(elsewhere, constant_score(match_all().occurring(occurrence)));
        let children = vec![phrase_term(), phrase_term().occurring(occurrence)];
        cases.asked(
            elsewhere,
            Node {
                children,
                ..phrase(0, &[])
            },
        );
    }
}

/// None below the leaves, one below ConstantScore and Boost, none below a PhraseTerm.
fn child_counts(cases: &mut Cases) {
    for node in [term(0), range(0, 0, 0, 0), match_all(), match_none()] {
        for child in [match_all(), match_all().must(), phrase_term()] {
            cases.asked(
                7,
                Node {
                    children: vec![child],
                    ..node.clone()
                },
            );
        }
    }
    for node in [constant_score(match_all()), boost(ONE, match_all())] {
        for children in [0, 2, 3] {
            let children = vec![match_all(); children];
            cases.asked(
                7,
                Node {
                    children,
                    ..node.clone()
                },
            );
        }
    }
    for child in [match_all(), phrase_term()] {
        let below = Node {
            children: vec![child],
            ..phrase_term()
        };
        cases.asked(
            7,
            Node {
                children: vec![below],
                ..phrase(0, &[])
            },
        );
    }
}

/// Three leaves, two fields; a phrase's leaves are of its field.
fn leaves_and_fields(cases: &mut Cases) {
    for (number, leaf) in [(0, 2), (8, 3), (8, 0x4000_0000), (8, u32::MAX)] {
        cases.asked(number, term(leaf));
        let number = if leaf == 2 { 8 } else { number };
        cases.asked(number, phrase(0, &[(leaf, 0)]));
        cases.asked(number, phrase(0, &[(0, 0), (leaf, 0)]));
    }
    for field in [2, 0x5555_5556, u32::MAX] {
        cases.asked(8, phrase(field, &[(0, 0)]));
    }
    cases.asked(8, phrase(1, &[(0, 0)]));
    cases.asked(8, phrase(1, &[(2, 0), (0, 0)]));
    for (number, offset) in [
        (0, 0),
        (0, 2_147_483_647),
        (8, 2_147_483_648),
        (8, u32::MAX),
    ] {
        cases.asked(number, phrase(0, &[(0, offset)]));
        cases.asked(number, phrase(0, &[(0, 0), (1, offset)]));
    }
}

/// Range kinds 0 to 9; an end's halves may be set where it is bounded.
fn ranges(cases: &mut Cases) {
    for (number, column) in [(0, 0), (8, 1), (8, 0x8000_0000), (8, u32::MAX)] {
        cases.asked(number, range(column, 4, 0, 0));
    }
    for kinds in [9, 10, 12, 0x8000_0000, u32::MAX] {
        cases.asked(8, range(0, kinds, 0, 0));
        cases.asked(8, range(0, kinds, 1, 1));
    }
    for kinds in 0..9 {
        cases.asked(0, range(0, kinds, 0, 0));
        let lower = if [0, 3, 6].contains(&kinds) { 8 } else { 0 };
        let upper = if [0, 1, 2].contains(&kinds) { 8 } else { 0 };
        for end in [1, 1 << 32, u64::MAX] {
            cases.asked(lower, range(0, kinds, end, 0));
            cases.asked(upper, range(0, kinds, 0, end));
        }
    }
}

fn boosts(cases: &mut Cases) {
    for (number, bits) in [(0, 0), (0, 1), (0, ONE), (0, LARGE), (8, LARGE + 1)] {
        cases.asked(number, boost(bits, match_all()));
    }
    for bits in NO_AMOUNT {
        cases.asked(8, boost(bits, match_all()));
        // also where no boost would reach it
        cases.asked(8, constant_score(boost(bits, match_all())));
    }
}

/// Each unused value of each kind.
fn unused(cases: &mut Cases) {
    let used = [1, 1, 1, 6, 0, 0, 1, 0];
    for (node, used) in each().into_iter().zip(used) {
        for place in used..6 {
            let mut other = node.clone();
            other.values[place] = [1, 0x8000_0000][place % 2];
            cases.asked(8, other);
        }
    }
    for place in 2..6 {
        let mut other = phrase(0, &[(0, 0), (1, 0)]);
        other.children[1].values[place] = 1;
        cases.asked(8, other);
    }
    for msm in [1, 64, 0x8000_0000, u32::MAX] {
        cases.asked(0, boolean(msm, [match_all().must()]));
    }
}

/// Boosts one below the other; each product is rounded, to 65,536 or above it.
fn products(cases: &mut Cases) {
    for (number, outer, inner) in [
        (0, LARGE, ONE),
        (9, LARGE, ONE + 1),
        (0, ONE, LARGE),
        (9, ONE + 1, LARGE),
        (0, TWO, 0x4700_0000),
        (9, TWO, 0x4700_0001),
        // 65,536 × (1 + 2^-24 - 2^-47) and 65,536 × (1 + 2^-22 - 2^-24 - 2^-46)
        (0, ONE + 1, LARGE - 1),
        (9, ONE + 2, LARGE - 1),
        (9, LARGE, LARGE),
        (0, LARGE, 0),
        (0, 1, 1),
        (0, 1, LARGE),
    ] {
        cases.asked(number, boost(outer, boost(inner, match_all())));
        cases.asked(number, boost(outer, boost(inner, phrase(0, &[(0, 0)]))));
        cases.asked(number, boost(outer, boost(inner, constant_score(term(0)))));
        cases.asked(number, boost(outer, boost(inner, boolean(0, []))));
    }
    let tower = |bits, levels| (0..levels).fold(match_all(), |below, _| boost(bits, below));
    cases.asked(9, tower(LARGE, 15));
    cases.asked(0, tower(TWO, 15));
    cases.asked(0, boost(TWO, tower(TWO, 14)));
    // above on the way, and 0 or infinite at the end
    cases.asked(9, boost(LARGE, boost(TWO, boost(0, match_all()))));
    cases.asked(9, boost(LARGE, boost(TWO, boost(0x3f00_0000, match_all()))));
    cases.asked(0, boost(0, tower(LARGE, 14)));
}

/// What Filter, MustNot and ConstantScore pass on is 0, Must and Should all of it.
fn boosts_below(cases: &mut Cases) {
    let twice = || boost(TWO, match_all());
    let above = || boost(TWO, boost(LARGE, match_all()));
    for (number, occurrence) in [(9, MUST), (9, SHOULD), (0, MUST_NOT), (0, FILTER)] {
        let clause = |node: Node| node.occurring(occurrence);
        cases.asked(number, boost(LARGE, boolean(0, [clause(twice())])));
        cases.asked(number, boolean(0, [clause(above())]));
        cases.asked(number, boolean(0, [match_all().must(), clause(above())]));
        cases.asked(number, boolean(0, [clause(above()), match_all().must()]));
        let inner = boolean(0, [clause(boost(LARGE, match_all()))]);
        cases.asked(number, boost(TWO, inner));
        let deeper = boolean(0, [clause(boolean(0, [above().should()]))]);
        cases.asked(number, deeper);
    }
    cases.asked(0, boost(LARGE, constant_score(twice())));
    cases.asked(0, constant_score(above()));
    cases.asked(9, boost(LARGE, boost(TWO, constant_score(match_all()))));
    // a clause after one that is passed 0, and after a phrase and its terms
    cases.asked(9, boolean(0, [above().filter(), above().must()]));
    let words = phrase(0, &[(0, 0), (1, 0)]).must();
    cases.asked(9, boolean(0, [words.clone(), above().should()]));
    cases.asked(0, boolean(0, [words, twice().should()]));
}

/// Field 1 has no positions.
fn without_positions(cases: &mut Cases) {
    let bare = || phrase(1, &[(2, 0)]);
    cases.asked(10, bare());
    cases.asked(10, boolean(0, [bare().must_not()]));
    cases.asked(
        10,
        boolean(0, [phrase(0, &[(0, 0)]).must(), bare().filter()]),
    );
    cases.asked(10, constant_score(bare()));
    cases.asked(0, term(2));
}
