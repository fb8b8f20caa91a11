//! Request 2026-01, lots withdrawn during the sale: Search and Page before a live bit is cleared
//! and after, by the request's rule and beside the Rust. LOT_SEARCH_CASES=1000000 runs more.
#![cfg_attr(not(all(oracle, linked)), allow(unused))]
#[macro_use]
mod common;

use common::*;
use harness::border::{Entries, Page, Pick, Search};
use harness::boundary;
use harness::case::Case;
use harness::catalogue::Catalogue;
#[cfg(oracle)]
use harness::compare::Compare;
use harness::damage::damaged;
#[cfg(oracle)]
use harness::double::{self, Double, WRONG, Wrong};
use harness::fuzz::Against;
use harness::generate::{self, short};
use harness::query::*;
use harness::random::Random;
use harness::refusal::order;
#[cfg(oracle)]
use harness::withdrawn::named::{self, MOST, NAMES, Reach, Stood};
#[cfg(oracle)]
use harness::withdrawn::{Clear, Withdrawal, some_document};
use std::panic::{AssertUnwindSafe, catch_unwind};

#[cfg(oracle)]
const BOTH: [Against; 2] = [Against::Rust, Against::LawsAlone];

/// A library, held to the rule and to the Rust.
#[cfg(oracle)]
fn beside_the_rust(entries: &dyn Entries) -> Withdrawal<'_> {
    Withdrawal {
        entries,
        against: Against::Rust,
        clear: Case::withdraw,
    }
}

/// Whether words of all ones for it are few enough to write.
fn writable(case: &Case) -> bool {
    case.n <= 1_048_577 || !case.live.is_empty()
}

/// The case of a seed; with every fourth a damaged copy, and calls that the caller spoils.
#[cfg(oracle)]
fn generated(withdrawal: &Withdrawal, seed: u64, reach: &Reach) {
    let case = generate::case(seed);
    let mut random = Random::new(!seed);
    let document = some_document(&case, &mut random);
    let k = case.k.min(MOST);
    let list = withdrawal.check(&case, document, &[k], &mut random);
    reach.note(&Stood::new(&case, [document, k], list));
    if !seed.is_multiple_of(4) {
        return;
    }
    let copy = damaged(&mut random, &case);
    if writable(&copy) {
        withdrawal.check(&copy, document, &[k], &mut random);
    }
    spoiled(withdrawal.entries, &case, document, &random);
}

/// A wrong k, a buffer too short and both: the same calls before and after.
#[cfg(oracle)]
fn spoiled(entries: &dyn Entries, case: &Case, document: u32, random: &Random) {
    for case in [case, &case.withdrawn(document)] {
        Compare::new(entries, case, &mut random.clone()).refused();
    }
}

/// Half as many cases as the differential run has.
#[test]
#[cfg_attr(
    not(all(oracle, linked)),
    ignore = "the library or the Rust source is absent"
)]
fn generated_cases() {
    with_library!(library, {
        let (cases, reach) = (cases().div_ceil(2), Reach::default());
        let withdrawal = beside_the_rust(library);
        each(cases, |seed| generated(&withdrawal, seed, &reach));
        // few cases need not reach all
        reach.is_full(cases / 1000, false);
    });
}

/// All indexes of so many documents, each with a score of 1, 2, 3 or none.
fn small_indexes(n: u32) -> Vec<Case> {
    let first = weighted(1f32.to_bits(), term(0)).should();
    let second = weighted(2f32.to_bits(), term(1)).should();
    let query = boolean(0, [first, second]);
    let indexes = short::indexes(n, 2);
    let cases = indexes.iter().map(|index| index.case(4, 1, &query));
    cases.filter(|case| case.live.is_empty()).collect()
}

/// No live words, and every pattern of them; the bits from N on are 0, and then 1.
fn live_patterns(n: u32) -> Vec<Vec<u64>> {
    let lent = (0..1 << n).flat_map(|below| [below, below | u64::MAX << n]);
    let lent = lent.map(|word| vec![word]).filter(|_| n > 0);
    lent.chain([vec![]]).collect()
}

#[cfg(oracle)]
fn small(withdrawal: &Withdrawal, case: &Case, random: &mut Random) {
    let mut case = case.clone();
    for live in live_patterns(case.n) {
        case.live = live;
        for document in 0..=64 {
            withdrawal.check(&case, document, &[1, 2, 3, 4], random);
        }
    }
}

#[test]
#[cfg_attr(
    not(all(oracle, linked)),
    ignore = "the library or the Rust source is absent"
)]
fn every_small_index() {
    with_library!(library, {
        let withdrawal = beside_the_rust(library);
        for (n, number) in [(0, 1), (1, 4), (2, 16), (3, 64)] {
            let indexes = small_indexes(n);
            assert_eq!(indexes.len(), number);
            each_of(&indexes, |case, random| small(&withdrawal, case, random));
        }
    });
}

/// The lot stands as each name says; with live words of all ones lent, the answers are the same.
#[cfg(oracle)]
fn every_name(withdrawal: &Withdrawal) {
    let mut random = Random::new(1);
    let reach = Reach::default();
    for (name, case, [document, k]) in named::all() {
        let list = withdrawal.check(&case, document, &[k], &mut random);
        let lent = case.withdrawn(u32::MAX);
        assert_eq!(lent.live.len(), case.n.div_ceil(64) as usize);
        assert_eq!(withdrawal.check(&lent, document, &[k], &mut random), list);
        let stood = Stood::new(&case, [document, k], list);
        let (_, holds) = NAMES.iter().find(|(own, _)| *own == name).unwrap();
        assert!(holds(&stood), "{name}: {document}");
        reach.note(&stood);
    }
    reach.is_full(1, true);
}

#[test]
#[cfg_attr(
    not(all(oracle, linked)),
    ignore = "the library or the Rust source is absent"
)]
fn named_cases() {
    with_library!(library, { every_name(&beside_the_rust(library)) });
}

/// Pages of several lengths after the withdrawal give the list before it without the document.
#[cfg(oracle)]
fn pages(withdrawal: &Withdrawal, seed: u64) {
    let case = generate::case(seed);
    let mut random = Random::new(!seed);
    let document = some_document(&case, &mut random);
    let mut list = withdrawal.run(&case).list(66, &mut random).unwrap();
    list.retain(|hit| hit.document != document);
    let changed = case.withdrawn(document);
    let after = withdrawal.run(&changed);
    for m in [1, 2, 3, 5, 8, list.len().max(1), list.len() + 1] {
        assert_eq!(after.list(m, &mut random).unwrap(), list, "pages of {m}");
    }
}

#[test]
#[cfg_attr(
    not(all(oracle, linked)),
    ignore = "the library or the Rust source is absent"
)]
fn pages_of_several_lengths() {
    with_library!(library, {
        each(5000, |seed| pages(&beside_the_rust(library), seed));
    });
}

/// Cases from both sides of the boundaries of 1 to 10: what is refused stays so, by its number.
#[test]
#[cfg_attr(
    not(all(oracle, linked)),
    ignore = "the library or the Rust source is absent"
)]
fn refusals_stay() {
    with_library!(library, {
        let withdrawal = beside_the_rust(library);
        let mut cases = boundary::all();
        cases.retain(|(_, case)| writable(case));
        let of = |number| cases.iter().any(|(own, _)| *own == number);
        assert!((0..=10).all(of), "a number without a case");
        each_of(&cases, |(number, case), random| {
            assert_eq!(order(case), *number);
            let document = some_document(case, random);
            withdrawal.check(case, document, &[case.k.min(MOST)], random);
        });
    });
}

/// Where words are lent, clearing a bit neither adds one nor takes one away: still refused 3.
#[cfg(oracle)]
fn wrong_length(withdrawal: &Withdrawal, n: u32, words: usize) {
    let mut random = Random::new(1);
    let mut case = Catalogue::new(n).case(1, 0, &match_all());
    case.live = vec![u64::MAX; words];
    for document in [0, 1, 63, 64, 65, 127, 128, 129, n, u32::MAX] {
        let changed = case.withdrawn(document);
        assert_eq!(changed.live.len(), words);
        withdrawal.check(&case, document, &[1], &mut random);
        let after = withdrawal.run(&changed);
        assert_eq!(after.search(1, 0, &mut random), Err(3));
        assert_eq!(after.list(1, &mut random), Err(3));
    }
}

const WRONG_LENGTHS: [(u32, usize); 7] = [
    (0, 1),
    (1, 2),
    (64, 2),
    (65, 1),
    (65, 3),
    (128, 1),
    (129, 2),
];

#[test]
#[cfg_attr(
    not(all(oracle, linked)),
    ignore = "the library or the Rust source is absent"
)]
fn live_words_of_a_wrong_length() {
    with_library!(library, {
        for (n, words) in WRONG_LENGTHS {
            wrong_length(&beside_the_rust(library), n, words);
        }
    });
}

/// Withdrawn from document 01's whole case; the live word, the full list, two hits, the count.
type Row = (u32, u64, &'static [u32], [u32; 2], u64);

const ROWS: [Row; 6] = [
    (2, 0xffff_ffff_ffff_fffb, &[0, 3], [0, 3], 2),
    (0, 0xffff_ffff_ffff_fffe, &[2, 3], [2, 3], 2),
    (3, 0xffff_ffff_ffff_fff7, &[0, 2], [2, 0], 2),
    (1, 0xffff_ffff_ffff_fffd, &[0, 2, 3], [2, 0], 3),
    (4, 0xffff_ffff_ffff_ffef, &[0, 2, 3], [2, 0], 3),
    (64, 0xffff_ffff_ffff_ffff, &[0, 2, 3], [2, 0], 3),
];

/// Documents of the whole case with their scores.
fn scored(documents: &[u32]) -> Vec<(u32, u32)> {
    let score = |d: u32| if d == 2 { 0x4040_0000 } else { ONE };
    documents.iter().map(|d| (*d, score(*d))).collect()
}

#[cfg(oracle)]
fn rows(withdrawal: &Withdrawal) {
    let mut random = Random::new(1);
    let case = whole_case(10);
    let before = withdrawal.run(&case);
    let list = before.list(5, &mut random).unwrap();
    assert_eq!(pairs(&list), scored(&[0, 2, 3]));
    let found = before.search(3, 10, &mut random).unwrap();
    assert_eq!(pairs(&found.hits), scored(&[2, 0, 3]));
    for (document, word, list, hits, count) in ROWS {
        let changed = case.withdrawn(document);
        assert_eq!(changed.live, [word]);
        let after = withdrawal.run(&changed);
        let listed = after.list(1, &mut random).unwrap();
        assert_eq!(pairs(&listed), scored(list));
        let found = after.search(2, 10, &mut random).unwrap();
        assert_eq!(pairs(&found.hits), scored(&hits));
        assert_eq!((found.count, found.mark), (count, false));
    }
}

/// N 65: the last document has a word of its own.
#[cfg(oracle)]
fn in_the_second_word(withdrawal: &Withdrawal) {
    let mut random = Random::new(1);
    let case = Catalogue::new(65).case(1, 0, &match_all());
    let changed = case.withdrawn(64);
    assert_eq!(changed.live, [u64::MAX, u64::MAX - 1]);
    let after = withdrawal.run(&changed);
    let all: Vec<_> = (0..64).map(|document| (document, ONE)).collect();
    assert_eq!(pairs(&after.list(3, &mut random).unwrap()), all);
    let found = after.search(100, 0, &mut random).unwrap();
    assert_eq!((pairs(&found.hits), found.count), (all, 64));
}

#[test]
#[cfg_attr(
    not(all(oracle, linked)),
    ignore = "the library or the Rust source is absent"
)]
fn worked_examples() {
    with_library!(library, {
        rows(&beside_the_rust(library));
        in_the_second_word(&beside_the_rust(library));
    });
}

/// What clearing does to the words, and that it does nothing else.
#[test]
fn the_words_after_a_bit_is_cleared() {
    let ones = u64::MAX;
    for (n, live, document, after) in [
        (3, vec![], 1, vec![ones - 2]),
        (3, vec![], 64, vec![ones]),
        (3, vec![5], 0, vec![4]),
        (3, vec![5], 1, vec![5]),
        (3, vec![5], 64, vec![5]),
        (3, vec![ones], 63, vec![ones >> 1]),
        (64, vec![], 63, vec![ones >> 1]),
        (65, vec![], 64, vec![ones, ones - 1]),
        (65, vec![7, 7], 66, vec![7, 3]),
        (65, vec![7], 64, vec![7]),
        (0, vec![], 0, vec![]),
        (0, vec![], u32::MAX, vec![]),
    ] {
        let mut case = Catalogue::new(n).case(1, 0, &match_all());
        case.live = live;
        let changed = case.withdrawn(document);
        case.live = after;
        assert_eq!(changed, case);
    }
}

/// The same checks with the judge and the Rust in place of the library; and by the rule alone.
#[test]
#[cfg_attr(not(oracle), ignore = "the Rust source is absent")]
fn the_double_is_right() {
    with_oracle!({
        for against in BOTH {
            let withdrawal = Withdrawal {
                against,
                ..beside_the_rust(&Double(Wrong::Nothing))
            };
            each(300, |seed| generated(&withdrawal, seed, &Reach::default()));
            each(100, |seed| pages(&withdrawal, seed));
            small(&withdrawal, &small_indexes(2)[6], &mut Random::new(1));
            every_name(&withdrawal);
            wrong_length(&withdrawal, 65, 1);
            rows(&withdrawal);
            in_the_second_word(&withdrawal);
        }
    });
}

/// The first seed at which a withdrawal does not pass.
#[cfg(oracle)]
fn caught(withdrawal: &Withdrawal) -> Option<u64> {
    let fails = |seed: &u64| {
        let run = || generated(withdrawal, *seed, &Reach::default());
        catch_unwind(AssertUnwindSafe(run)).is_err()
    };
    (0..300).find(fails)
}

/// Wrong alike before and after: only the Rust tells.
#[cfg(oracle)]
const ALIKE: [Wrong; 2] = [Wrong::FlipsLastBit, Wrong::ScoresUp];

/// Wrong in a page of no documents, which is not asked for here.
#[cfg(oracle)]
const NOT_ASKED: Wrong = Wrong::EndsEarly;

/// Each wrong library is caught by the rule alone, but for those that it can't see.
#[test]
#[cfg_attr(not(oracle), ignore = "the Rust source is absent")]
fn wrong_libraries_are_caught() {
    with_oracle!({
        for wrong in WRONG {
            for against in BOTH {
                let withdrawal = Withdrawal {
                    entries: &Double(wrong),
                    against,
                    clear: Case::withdraw,
                };
                let alone = against == Against::LawsAlone;
                let unseen = wrong == NOT_ASKED || alone && ALIKE.contains(&wrong);
                let first = caught(&withdrawal);
                println!("{wrong:?} is caught at {first:?}, {against:?}");
                assert_eq!(first.is_none(), unseen, "{wrong:?} {against:?}");
            }
        }
    });
}

/// A library that is wrong in Search alone.
#[cfg(oracle)]
struct RightPages(Double);

#[cfg(oracle)]
impl Entries for RightPages {
    fn search(&self, call: Search) -> u32 {
        self.0.search(call)
    }
    fn page(&self, call: Page) -> u32 {
        Double(Wrong::Nothing).page(call)
    }
    fn pick(&self, call: Pick) -> u32 {
        self.0.pick(call)
    }
}

/// The rule of the hits catches by itself what the rule of the full list catches too.
#[test]
#[cfg_attr(not(oracle), ignore = "the Rust source is absent")]
fn wrong_hits_are_caught() {
    with_oracle!({
        for wrong in [
            Wrong::LiveBitOfNext,
            Wrong::FindsNothing,
            Wrong::LeavesOutputs,
            Wrong::DropsTheLast,
            Wrong::CountsHeld,
            Wrong::TurnsTies,
        ] {
            let withdrawal = Withdrawal {
                entries: &RightPages(Double(wrong)),
                against: Against::LawsAlone,
                clear: Case::withdraw,
            };
            let first = caught(&withdrawal);
            println!("{wrong:?} is caught at {first:?}");
            assert!(first.is_some(), "{wrong:?}");
        }
    });
}

/// Ways to clear a bit that are wrong.
#[cfg(oracle)]
const CLEARINGS: [(&str, Clear); 5] = [
    ("the bit of d + 1", |case, d| {
        case.withdraw(d.wrapping_add(1));
    }),
    ("no words written", |case, d| {
        if !case.live.is_empty() {
            case.withdraw(d);
        }
    }),
    ("words of zeros written", |case, d| {
        if case.live.is_empty() {
            case.live = vec![0; case.n.div_ceil(64) as usize];
        }
        case.withdraw(d);
    }),
    ("words of ones always written", |case, d| {
        case.live.clear();
        case.withdraw(d);
    }),
    ("the whole word cleared", |case, d| {
        (d & !63..=d | 63).for_each(|other| case.withdraw(other));
    }),
];

#[test]
#[cfg_attr(not(oracle), ignore = "the Rust source is absent")]
fn wrong_clearings_are_caught() {
    with_oracle!({
        for (name, clear) in CLEARINGS {
            for against in BOTH {
                let withdrawal = Withdrawal {
                    entries: &Double(Wrong::Nothing),
                    against,
                    clear,
                };
                let first = caught(&withdrawal);
                println!("{name}: caught at {first:?}, {against:?}");
                assert!(first.is_some(), "{name}, {against:?}");
            }
        }
    });
}

/// A library whose costs leave the dead out: it searches an index without their postings.
#[cfg(oracle)]
struct CostsOfLive;

#[cfg(oracle)]
impl Entries for CostsOfLive {
    fn search(&self, call: Search) -> u32 {
        let case = of_live(double::case(call.index, call.query));
        let index = case.index();
        Double(Wrong::Nothing).search(Search { index, ..call })
    }
    fn page(&self, call: Page) -> u32 {
        let case = of_live(double::case(call.index, call.query));
        let index = case.index();
        Double(Wrong::Nothing).page(Page { index, ..call })
    }
    fn pick(&self, call: Pick) -> u32 {
        Double(Wrong::Nothing).pick(call)
    }
}

/// An accepted case without the postings of dead documents.
fn of_live(mut case: Case) -> Case {
    let (mut leaves, mut postings) = (case.leaves.clone(), Vec::new());
    for (number, leaf) in (0..).zip(leaves.chunks_mut(4)) {
        let run = plain::postings(&case, number);
        let live: Vec<_> = run.filter(|posting| case.is_live(posting[0])).collect();
        leaf[1] = postings.len() as u32 / 3;
        leaf[2] = live.len() as u32;
        postings.extend(live.concat());
    }
    (case.leaves, case.postings) = (leaves, postings);
    case
}

/// Scores stay because costs count the dead too; where they do not, the rule alone tells.
#[test]
#[cfg_attr(not(oracle), ignore = "the Rust source is absent")]
fn scores_stay() {
    with_oracle!({
        let case = named::by_cost();
        let changed = case.withdrawn(1);
        assert_eq!(list(&case), [(0, 0x3f80_0001)]);
        assert_eq!(list(&changed), [(0, 0x3f80_0001)]);
        assert_eq!(list(&of_live(changed)), [(0, ONE)]);
        let by_rule = |entries: &dyn Entries| {
            let withdrawal = Withdrawal {
                against: Against::LawsAlone,
                ..beside_the_rust(entries)
            };
            let run = || withdrawal.check(&case, 1, &[1], &mut Random::new(1));
            catch_unwind(AssertUnwindSafe(run)).is_ok()
        };
        assert!(by_rule(&Double(Wrong::Nothing)));
        assert!(!by_rule(&CostsOfLive));
    });
}
