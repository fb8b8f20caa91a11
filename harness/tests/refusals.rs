//! Document 01's refusals from both sides of each boundary. They are ours to say: the Rust, which
//! answers no refusals, is not asked.
use harness::boundary::{self, sound};
use harness::case::Case;
use harness::catalogue::Catalogue;
use harness::damage::damaged;
use harness::generate;
use harness::query::*;
use harness::random::Random;
use harness::refusal::{order, refusal};

/// The number with which the sound case is refused once it is changed.
fn changed(change: impl FnOnce(&mut Case)) -> u32 {
    let mut case = sound();
    change(&mut case);
    refusal(&case)
}

fn asked(query: Node) -> u32 {
    changed(|case| case.query = query.words())
}

#[test]
fn the_sound_case_is_accepted() {
    assert_eq!(refusal(&sound()), 0);
}

#[test]
fn the_loader_s_refusals() {
    let empty = |n| Catalogue::new(n).case(1, 0, &match_all());
    assert_eq!(refusal(&empty(1_048_576)), 0);
    assert_eq!(refusal(&empty(1_048_577)), 1);
    assert_eq!(changed(|c| c.fields.push(0)), 2);
    assert_eq!(changed(|c| c.fields[0] -= 1), 2);
    assert_eq!(changed(|c| c.fields[0] = 0x4b80_0000), 0);
    assert_eq!(changed(|c| c.fields[0] = 0x4b80_0001), 2);
    assert_eq!(changed(|c| c.fields[1] = 2), 2);
    assert_eq!(
        changed(|c| c.fields.extend([0x3f80_0000, 0, 0].repeat(14))),
        0
    );
    assert_eq!(
        changed(|c| c.fields.extend([0x3f80_0000, 0, 0].repeat(15))),
        2
    );
    assert_eq!(changed(|c| c.norms.truncate(2)), 3);
    assert_eq!(changed(|c| c.live.clear()), 0);
    assert_eq!(changed(|c| c.live.push(0)), 3);
    assert_eq!(changed(|c| c.leaves.push(0)), 4);
    assert_eq!(changed(|c| c.leaves[0] = 2), 4);
    assert_eq!(changed(|c| c.leaves[3] += 1), 4);
    assert_eq!(changed(|c| c.leaves.extend([0, 4, 0, 0])), 0);
    assert_eq!(changed(|c| c.leaves.extend([0, 5, 0, 0])), 4);
    assert_eq!(changed(|c| c.leaves.extend([0, 4, u32::MAX, 0])), 4);
    assert_eq!(changed(|c| c.leaves.extend([0; 4].repeat(509))), 0);
    assert_eq!(changed(|c| c.leaves.extend([0; 4].repeat(510))), 4);
}

#[test]
fn postings_and_columns() {
    assert_eq!(changed(|c| c.postings.push(0)), 5);
    assert_eq!(changed(|c| c.postings.extend([9, 0, 9])), 0);
    assert_eq!(changed(|c| c.postings[3] = 0), 5);
    assert_eq!(changed(|c| c.postings[3] = 3), 5);
    assert_eq!(changed(|c| c.postings[1] = 0), 5);
    assert_eq!(changed(|c| c.postings[10] += 1), 5);
    assert_eq!(changed(|c| c.postings[11] = 1), 5);
    assert_eq!(changed(|c| c.postings[5] = 4), 5);
    assert_eq!(changed(|c| c.postings[5] = u32::MAX), 5);
    assert_eq!(changed(|c| c.positions[0] = 1), 5);
    assert_eq!(changed(|c| c.positions[2] += 1), 5);
    assert_eq!(changed(|c| c.columns.push(0)), 6);
    assert_eq!(changed(|c| c.columns[0] = 2), 6);
    assert_eq!(changed(|c| c.values[0] = 2), 6);
    assert_eq!(changed(|c| c.values[4] = 9), 0);
    let widened = |c: &mut Case, columns: usize| {
        c.columns = vec![1; columns];
        c.values = [1, 0, 0].repeat(3 * columns);
    };
    assert_eq!(changed(|c| widened(c, 8)), 0);
    assert_eq!(changed(|c| widened(c, 9)), 6);
}

#[test]
fn the_form_of_the_query() {
    assert_eq!(changed(|c| c.query.clear()), 7);
    assert_eq!(changed(|c| c.query.push(0)), 7);
    assert_eq!(changed(|c| c.query.extend(match_all().words())), 7);
    assert_eq!(changed(|c| c.query[2] = 4), 7);
    assert_eq!(changed(|c| c.query[2] = u32::MAX), 7);
    assert_eq!(asked(match_all().must()), 7);
    assert_eq!(asked(boolean(0, [match_all()])), 7);
    assert_eq!(asked(boolean(0, [match_all().occurring(5)])), 7);
    assert_eq!(asked(boost(0, match_all().must())), 7);
    let phrase_term = phrase(0, &[(0, 0)]).children.remove(0);
    assert_eq!(asked(phrase_term.clone()), 7);
    assert_eq!(asked(constant_score(phrase_term)), 7);
    for (children, number) in [(0, 7), (1, 0), (32, 0), (33, 7)] {
        assert_eq!(asked(phrase(0, &[(0, 0)].repeat(children))), number);
    }
    for (children, number) in [(0, 0), (64, 0), (65, 7)] {
        assert_eq!(asked(boolean(0, vec![term(0).should(); children])), number);
    }
    let deep = |levels| (1..levels).fold(match_all(), |below, _| constant_score(below));
    assert_eq!(asked(deep(16)), 0);
    assert_eq!(asked(deep(17)), 7);
    let group = boolean(0, vec![term(0).should(); 64]).should();
    let many = |rest| {
        boolean(
            0,
            [vec![group.clone(); 3], vec![term(0).should(); rest]].concat(),
        )
    };
    assert_eq!(asked(many(60)), 0);
    assert_eq!(asked(many(61)), 7);
    for kind in [0, 10] {
        let unknown = Node {
            kind,
            ..match_all()
        };
        assert_eq!(asked(unknown), 7);
    }
}

#[test]
fn the_values_of_the_query() {
    assert_eq!(asked(term(3)), 8);
    assert_eq!(asked(term(u32::MAX)), 8);
    assert_eq!(asked(phrase(2, &[(0, 0)])), 8);
    assert_eq!(asked(phrase(0, &[(2, 0)])), 8);
    assert_eq!(asked(phrase(0, &[(0, 2_147_483_648)])), 8);
    assert_eq!(asked(range(1, 0, 0, 0)), 8);
    assert_eq!(asked(range(0, 9, 0, 0)), 8);
    assert_eq!(asked(range(0, 3, 1 << 32, 0)), 8);
    assert_eq!(asked(range(0, 1, 0, 1)), 8);
    assert_eq!(asked(range(0, 1, u64::MAX, 0)), 0);
    assert_eq!(asked(boost(0x4780_0001, match_all())), 8);
    assert_eq!(asked(boost(0x8000_0000, match_all())), 8);
    for sound in [
        term(0),
        boolean(0, []),
        match_all(),
        match_none(),
        phrase(0, &[(0, 0)]),
    ] {
        let mut node = sound;
        node.values[5] = 1;
        assert_eq!(asked(node), 8);
    }
}

#[test]
fn boosts_phrases_and_the_caller() {
    let large = 0x4780_0000;
    let twice = |child: Node| boost(0x4000_0000, child);
    assert_eq!(asked(boost(large, twice(match_all()))), 9);
    assert_eq!(asked(boost(large, twice(boost(0, match_all())))), 9);
    assert_eq!(asked(boost(large, constant_score(twice(match_all())))), 0);
    let clause = twice(boost(large, match_all()));
    assert_eq!(asked(boolean(0, [clause.clone().should()])), 9);
    assert_eq!(
        asked(boost(large, boolean(0, [twice(match_all()).filter()]))),
        0
    );
    assert_eq!(asked(boolean(0, [clause.must_not()])), 0);
    assert_eq!(asked(phrase(1, &[(2, 0)])), 10);
    assert_eq!(changed(|c| c.k = 0), 11);
    assert_eq!(changed(|c| c.k = 1025), 11);
    let ranges = |n| {
        let mut catalogue = Catalogue::new(n);
        catalogue.column_of_i64(&vec![None; n as usize]);
        refusal(&catalogue.case(1, 0, &range(0, 0, 0, 0)))
    };
    assert_eq!((ranges(8192), ranges(8193)), (0, 12));
}

#[test]
fn the_lowest_number_is_told() {
    assert_eq!(changed(|c| (c.k, c.query[3 + 9]) = (0, 7)), 8);
    assert_eq!(changed(|c| (c.fields[1], c.norms) = (2, vec![])), 2);
    let late = boolean(0, [match_none().must(), term(9).must()]);
    assert_eq!(asked(late), 8);
}

/// The number that stands beside each built case is the judge's, where the caller's are not asked.
#[test]
fn every_boundary() {
    for (at, (number, case)) in boundary::all().into_iter().enumerate() {
        let told = match refusal(&case) {
            11.. => 0,
            told => told,
        };
        assert_eq!(told, number, "case {at}: {case:?}");
    }
}

#[test]
fn large_frequencies() {
    for (at, (number, case)) in boundary::large().enumerate() {
        assert_eq!(refusal(&case), number, "case {at}");
    }
}

/// Damaged copies of generated cases are refused with each number, and some are sound.
#[test]
fn damage_gives_every_number() {
    let mut copies = [0; 11];
    for seed in 0..4000 {
        let copy = damaged(&mut Random::new(seed), &generate::case(seed));
        copies[order(&copy) as usize] += 1;
    }
    assert!(copies.iter().all(|number| *number >= 10), "{copies:?}");
}
