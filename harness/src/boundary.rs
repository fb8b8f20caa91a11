//! Cases from both sides of every boundary of document 01's refusals 1 to 10, each with its number
//! as the text has it: none of these numbers is worked out.
mod index;
mod laid;
mod query;

pub use laid::large;

use crate::case::Case;
use crate::catalogue::Catalogue;
use crate::query::*;

/// Patterns that are no number from 0 up to a limit: minus zero, negative, infinite, NaN.
const NO_AMOUNT: [u32; 8] = [
    0x8000_0000,
    0x8000_0001,
    0xbf80_0000,
    0x7f80_0000,
    0xff80_0000,
    0x7fc0_0000,
    0xffc0_0000,
    u32::MAX,
];

/// Three documents; fields 0 (norms, positions) and 1 (neither); leaves 0 and 1 in field 0, leaf 2
/// in field 1; an i64 column.
pub fn sound() -> Case {
    let mut catalogue = Catalogue::new(3);
    let full = catalogue.field_with(1.0, Some(&[0, 1, 255]), true);
    let bare = catalogue.field();
    catalogue.leaf_of_positions(full, 64.0, &[(0, &[0, 0]), (2, &[2_147_483_647])]);
    catalogue.leaf_of_positions(full, 0.0, &[(1, &[5])]);
    catalogue.leaf_of_frequencies(bare, 1.0, &[(1, 16_777_216)]);
    catalogue.column_of_i64(&[Some(-1), None, Some(7)]);
    catalogue.kill(1);
    let clauses = [
        phrase(0, &[(0, 0), (1, 2_147_483_647)]).must(),
        boost(0x4780_0000, term(2)).should(),
        range(0, 8, 1, 2).filter(),
    ];
    catalogue.case(1024, 0, &boolean(u32::MAX, clauses))
}

/// MatchAll over N documents and nothing else.
fn empty(n: u32) -> Case {
    Catalogue::new(n).case(1, 0, &match_all())
}

/// Cases, each with its number.
#[derive(Default)]
pub struct Cases(Vec<(u32, Case)>);

impl Cases {
    fn is(&mut self, number: u32, case: Case) {
        self.0.push((number, case));
    }

    /// The sound case, changed.
    fn changed(&mut self, number: u32, change: impl FnOnce(&mut Case)) {
        let mut case = sound();
        change(&mut case);
        self.is(number, case);
    }

    /// The sound index, asked something else.
    fn asked(&mut self, number: u32, query: Node) {
        self.is(number, sound().with_query(query.words()));
    }
}

pub fn all() -> Vec<(u32, Case)> {
    let mut cases = Cases::default();
    cases.is(0, sound());
    index::add(&mut cases);
    laid::add(&mut cases);
    query::add(&mut cases);
    several(&mut cases);
    cases.0
}

/// Something wrong for each number, from 1 to 10; a case with several has the lowest.
fn several(cases: &mut Cases) {
    let wrong: [fn(&mut Case); 10] = [
        |c| c.n = 1_048_577,
        |c| c.fields[3] = 0,
        |c| c.norms.clear(),
        |c| c.leaves[7] = 0x4280_0001,
        |c| c.postings[1] = 0,
        |c| c.columns.push(0),
        |c| c.query.extend(match_all().words()),
        |c| c.query[9 + 8] = 1,
        |c| {
            let large = boost(0x4780_0000, boost(0x4780_0000, match_all()));
            c.query.extend(large.should().words());
            c.query[2] += 1;
        },
        |c| {
            c.query.extend(phrase(1, &[(2, 0)]).must().words());
            c.query[2] += 1;
        },
    ];
    let small = boolean(0, [term(0).must()]).words();
    for lowest in 1..=10 {
        let mut from = |others: &[fn(&mut Case)]| {
            cases.changed(lowest, |case| {
                case.query = small.clone();
                others.iter().for_each(|wrong| wrong(case));
                wrong[lowest as usize - 1](case);
            })
        };
        let above = &wrong[lowest as usize..];
        from(above);
        above.iter().for_each(|one| from(&[*one]));
    }
}
