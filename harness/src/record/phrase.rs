//! A frequency is read back from the score that the unchanged Rust gives to a query of one phrase
//! over one document, and a plain count of the common starts has to agree. The Rust has no Place:
//! the least common start is the plain count's.
use super::numbers;
use crate::catalogue::Catalogue;
use crate::oracle::{self, Oracle};
use crate::query::phrase;

const HIGH: u32 = 2_147_483_600;
const ONE: u32 = 0x3f80_0000;

/// Ascending positions, and an offset.
type Term = (Vec<u32>, u32);

pub fn text() -> String {
    let bases = [
        (0, 0, 1500),
        (0, HIGH, 200),
        (HIGH, 0, 200),
        (HIGH, HIGH, 200),
    ];
    let asked = |(position, offset, times)| asked(position, offset, times);
    bases.map(asked).concat()
}

/// Phrases of one to five terms in turn.
fn asked(position_base: u32, offset_base: u32, times: u64) -> String {
    let mut text = String::new();
    for i in 0..times {
        let seed = 0x9e37_79b9_7f4a_7c15u64.wrapping_mul(i + 1).wrapping_add(1);
        let mut terms = terms(position_base, offset_base, seed);
        terms.truncate(1 + i as usize % 5);
        let (frequency, starts) = (frequency(&terms), common(&terms));
        assert_eq!(frequency as usize, starts.len());
        let place = starts.first().map_or("none".into(), i64::to_string);
        text += &format!("{frequency} {place}\n");
    }
    text
}

/// Five terms with 1 to 8 of eight positions, each above the one before by less than a spread.
fn terms(position_base: u32, offset_base: u32, seed: u64) -> Vec<Term> {
    let steps: Vec<u64> = numbers(seed).take(40).collect();
    let rows = steps.chunks(8);
    let words = numbers(seed ^ 0x5555_5555_5555_5555);
    let term = |(steps, word): (&[u64], u64)| {
        let mut position = position_base;
        let mut positions = Vec::new();
        for step in steps {
            position += (step % (2 + seed % 2)) as u32;
            positions.push(position);
        }
        positions.truncate(1 + word as usize % 8);
        (positions, offset_base + (word >> 8) as u32 % 4)
    };
    rows.zip(words).map(term).collect()
}

fn frequency(terms: &[Term]) -> u32 {
    let mut catalogue = Catalogue::new(1);
    let field = catalogue.field_with_positions();
    let leaf = |(positions, offset): &Term| {
        let run = [(0, positions.as_slice())];
        (catalogue.leaf_of_positions(field, 1.0, &run), *offset)
    };
    let leaves: Vec<_> = terms.iter().map(leaf).collect();
    let case = catalogue.case(1, 1, &phrase(field, &leaves));
    let list = Oracle::new(&case).list();
    let Some(hit) = list.first() else {
        return 0;
    };
    let idf = (terms.len() as f32).to_bits();
    let score = |frequency: &u32| oracle::bm25(ONE, idf, ONE, *frequency, 1);
    let mut same = (1..=8).filter(|frequency| score(frequency) == hit.bits);
    let frequency = same.next().expect("a score of 1 to 8 starts");
    assert_eq!(same.next(), None);
    frequency
}

/// The starts that every term has, ascending, each with its smallest multiplicity.
fn common(terms: &[Term]) -> Vec<i64> {
    let starts = |(positions, offset): &Term| -> Vec<i64> {
        let start = |position: &u32| i64::from(*position) - i64::from(*offset);
        positions.iter().map(start).collect()
    };
    let all: Vec<_> = terms.iter().map(starts).collect();
    let mut distinct = all[0].clone();
    distinct.dedup();
    let times = |s: &i64| {
        let own = |own: &Vec<i64>| own.iter().filter(|t| *t == s).count();
        all.iter().map(own).min().unwrap()
    };
    let repeated = distinct.iter().map(|s| vec![*s; times(s)]);
    repeated.collect::<Vec<_>>().concat()
}
