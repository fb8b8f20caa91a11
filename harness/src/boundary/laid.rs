//! 5 in leaves as a writer lays them: runs that follow one another, their positions too. What is
//! wrong in one record is wrong wherever that record stands; from leaf to leaf documents may fall.
use super::Cases;
use crate::case::Case;
use crate::catalogue::Catalogue;
use crate::query::match_all;

const N: u32 = 30;
const MIXED: [usize; 14] = [2, 1, 3, 2, 2, 1, 2, 3, 1, 2, 2, 1, 3, 2];
const ONES: [usize; 14] = [1; 14];

/// Some of fourteen records: two, and rows of four after them.
const SOME: [usize; 8] = [0, 1, 2, 5, 6, 10, 12, 13];

/// Above every position that a run has.
const ABOVE: u32 = 1000;
const MOST: u32 = 2_147_483_647;

pub fn add(cases: &mut Cases) {
    for frequencies in [MIXED, ONES] {
        let [seven, fourteen] = [7, 14].map(|number| Run::new(&[number], &frequencies));
        for run in [&seven, &fourteen] {
            whole(cases, run);
        }
        (0..7).for_each(|at| record(cases, &seven, at));
        SOME.iter().for_each(|at| record(cases, &fourteen, *at));
    }
    let rising = Run::rising(7);
    whole(cases, &rising);
    (0..7).for_each(|at| moved(cases, &rising, at));
    for leaves in [&[7, 7][..], &[5, 5, 4], &[6, 1, 7]] {
        several_leaves(cases, leaves);
    }
    other_leaves(cases);
}

/// A posting's document and positions.
#[derive(Clone)]
struct Posting {
    document: u32,
    positions: Vec<u32>,
}

/// Postings, and how many of them each leaf has.
#[derive(Clone)]
struct Run {
    leaves: Vec<usize>,
    postings: Vec<Posting>,
}

impl Run {
    /// Documents 1, 3, 5 and so on. The first two positions of a posting are equal, and all are
    /// below those of the posting before.
    fn new(leaves: &[usize], frequencies: &[usize]) -> Run {
        let number = leaves.iter().sum();
        let posting = |at: usize| {
            let first = 100 - 5 * at as u32;
            Posting {
                document: 2 * at as u32 + 1,
                positions: [first, first, first + 3][..frequencies[at]].to_vec(),
            }
        };
        Run {
            leaves: leaves.to_vec(),
            postings: (0..number).map(posting).collect(),
        }
    }

    /// One leaf in which no position is below the one before.
    fn rising(number: usize) -> Run {
        let mut run = Run::new(&[number], &MIXED);
        for (at, posting) in (0..).zip(&mut run.postings) {
            posting.positions.fill(10 * at);
        }
        run
    }

    /// The documents of each leaf begin at 1.
    fn restarted(leaves: &[usize]) -> Run {
        let mut run = Run::new(leaves, &MIXED);
        let documents = leaves.iter().flat_map(|number| 0..*number as u32);
        for (posting, at) in run.postings.iter_mut().zip(documents) {
            posting.document = 2 * at + 1;
        }
        run
    }

    /// The first posting of each leaf but the first.
    fn borders(&self) -> Vec<usize> {
        let sum = |sum: &mut usize, number: &usize| {
            *sum += number;
            Some(*sum)
        };
        let mut ends: Vec<_> = self.leaves.iter().scan(0, sum).collect();
        ends.pop();
        ends
    }

    fn frequency(&self, at: usize) -> usize {
        self.postings[at].positions.len()
    }

    fn last(&self) -> usize {
        self.postings.len() - 1
    }

    fn case(&self) -> Case {
        let mut catalogue = Catalogue::new(N);
        let field = catalogue.field_with_positions();
        let mut rest = self.postings.as_slice();
        for number in &self.leaves {
            let (own, after) = rest.split_at(*number);
            let pairs = own.iter().map(|p| (p.document, p.positions.as_slice()));
            catalogue.leaf_of_positions(field, 1.0, &pairs.collect::<Vec<_>>());
            rest = after;
        }
        catalogue.case(1, 0, &match_all())
    }

    /// The run with one posting changed, all laid one after the other again.
    fn with(&self, at: usize, change: impl FnOnce(&mut Posting)) -> Case {
        let mut run = self.clone();
        change(&mut run.postings[at]);
        run.case()
    }

    /// The run with one word of a record changed, and nothing else.
    fn with_word(&self, at: usize, word: usize, change: impl FnOnce(u32) -> u32) -> Case {
        let mut case = self.case();
        let place = &mut case.postings[3 * at + word];
        *place = change(*place);
        case
    }
}

/// The run as it is, then with a position less, and with more before and after.
fn whole(cases: &mut Cases, run: &Run) {
    let sound = run.case();
    cases.is(0, sound.clone());
    for (number, change) in [
        (5, (|c| _ = c.positions.pop()) as fn(&mut Case)),
        (0, |c| c.positions.push(u32::MAX)),
        (0, |c| {
            c.positions.insert(0, u32::MAX);
            c.postings
                .iter_mut()
                .skip(2)
                .step_by(3)
                .for_each(|i| *i += 1);
        }),
    ] {
        let mut case = sound.clone();
        change(&mut case);
        cases.is(number, case);
    }
}

fn record(cases: &mut Cases, run: &Run, at: usize) {
    document(cases, run, at);
    frequency(cases, run, at);
    index(cases, run, at);
    positions(cases, run, at);
}

/// A document equal to the one before, and below it; a leaf's last one below N, and N.
fn document(cases: &mut Cases, run: &Run, at: usize) {
    let borders = run.borders();
    if at > 0 {
        let number = if borders.contains(&at) { 0 } else { 5 };
        let before = run.postings[at - 1].document;
        cases.is(number, run.with(at, |p| p.document = before));
        cases.is(number, run.with(at, |p| p.document = before - 1));
    }
    if at == run.last() || borders.contains(&(at + 1)) {
        cases.is(0, run.with(at, |p| p.document = N - 1));
        cases.is(5, run.with(at, |p| p.document = N));
    }
}

/// One more reaches into the next posting, whose positions are below, or past the slice; none is
/// wrong even where all positions still follow one another.
fn frequency(cases: &mut Cases, run: &Run, at: usize) {
    for frequency in [0, 16_777_217, run.frequency(at) as u32 + 1] {
        cases.is(5, run.with_word(at, 1, |_| frequency));
    }
    cases.is(5, run.with(at, |p| p.positions.clear()));
}

/// One off, a single position is that of the posting beside; more are of two postings, and fall.
fn index(cases: &mut Cases, run: &Run, at: usize) {
    let one_off = |outside: bool| match outside || run.frequency(at) > 1 {
        true => 5,
        false => 0,
    };
    let more = run.with_word(at, 2, |index| index + 1);
    cases.is(one_off(at == run.last()), more);
    let less = run.with_word(at, 2, |index| index.wrapping_sub(1));
    cases.is(one_off(at == 0), less);
    cases.is(5, past_the_slice(run, at));
}

/// The positions of a posting end one past the slice.
fn past_the_slice(run: &Run, at: usize) -> Case {
    let end = run.case().positions.len();
    run.with_word(at, 2, |_| (end - run.frequency(at) + 1) as u32)
}

/// A posting's last position at the limit and one above it; all above those of the posting before;
/// then falling inside of the posting: once more than before, and as often as before, where the
/// first position is above the one before it or equal to it.
fn positions(cases: &mut Cases, run: &Run, at: usize) {
    let last = run.frequency(at) - 1;
    cases.is(0, run.with(at, |p| p.positions[last] = MOST));
    cases.is(5, run.with(at, |p| p.positions[last] = MOST + 1));
    cases.is(0, run.with(at, |p| p.positions.fill(ABOVE)));
    if last > 0 {
        cases.is(5, run.with(at, |p| p.positions[last] = 0));
        cases.is(5, run.with(at, |p| p.positions[0] = ABOVE));
        if at > 0 {
            let before = run.postings[at - 1].positions.clone();
            let equal = |p: &mut Posting| p.positions[0] = before[before.len() - 1];
            cases.is(5, run.with(at, equal));
        }
    }
}

/// Positions that never fall: index and frequency may be one off, as long as they stay within the
/// slice.
fn moved(cases: &mut Cases, run: &Run, at: usize) {
    let within = |outside: bool| if outside { 5 } else { 0 };
    let last = at == run.last();
    cases.is(within(last), run.with_word(at, 1, |f| f + 1));
    cases.is(within(last), run.with_word(at, 2, |index| index + 1));
    let less = run.with_word(at, 2, |index| index.wrapping_sub(1));
    cases.is(within(at == 0), less);
    cases.is(5, past_the_slice(run, at));
    let end = run.case().positions.len();
    let at_the_end = run.with_word(at, 2, |_| (end - run.frequency(at)) as u32);
    cases.is(0, at_the_end);
    if run.frequency(at) > 1 {
        cases.is(0, run.with_word(at, 1, |f| f - 1));
    }
}

/// All that can be wrong on both sides of each border, and documents that fall elsewhere: where the
/// next leaf's are above, and where each leaf begins anew.
fn several_leaves(cases: &mut Cases, leaves: &[usize]) {
    let run = Run::new(leaves, &MIXED);
    let borders = run.borders();
    whole(cases, &run);
    for at in 0..14 {
        match borders.contains(&at) || borders.contains(&(at + 1)) {
            true => record(cases, &run, at),
            false => document(cases, &run, at),
        }
    }
    let run = Run::restarted(leaves);
    whole(cases, &run);
    let inside = (0..14).filter(|at| !borders.contains(at));
    inside.for_each(|at| document(cases, &run, at));
}

/// Frequencies up to the limit and one above it, with all their positions: alone, among the first
/// records, in a row and last. One at a time, since each takes 64 MiB.
pub fn large() -> impl Iterator<Item = (u32, Case)> {
    let places = [(1, 0), (7, 1), (7, 4), (7, 6)];
    let frequencies = [(0, 16_777_215), (0, 16_777_216), (5, 16_777_217)];
    let at = move |(leaf, at): (usize, usize)| {
        let run = Run::new(&[leaf], &MIXED);
        let same = move |frequency| run.with(at, |p| p.positions = vec![p.positions[0]; frequency]);
        let cases = frequencies.into_iter();
        cases.map(move |(number, frequency)| (number, same(frequency)))
    };
    places.into_iter().flat_map(at)
}

/// Two leaves that do not follow one another, or only by their words.
fn other_leaves(cases: &mut Cases) {
    let sound = Run::new(&[7, 7], &MIXED).case();
    let mut changed = |number, change: fn(&mut Case)| {
        let mut case = sound.clone();
        change(&mut case);
        cases.is(number, case);
    };
    changed(0, |c| c.leaves.rotate_left(4));
    changed(0, |c| c.leaves[5] = 6);
    changed(0, |c| c.leaves[5] = 0);
    changed(0, |c| c.leaves[6] = 0);
    changed(0, |c| c.leaves.extend([0, 0, 14, 0]));
    // the second leaf in a field without positions: its indexes have to be 0
    changed(5, |c| {
        c.fields.extend([0x3f80_0000, 0, 0]);
        c.leaves[4] = 1;
    });
    changed(0, |c| {
        c.fields.extend([0x3f80_0000, 0, 0]);
        c.leaves[4] = 1;
        let second = c.postings[21..].iter_mut();
        second.skip(2).step_by(3).for_each(|index| *index = 0);
    });
}
