//! Calls of Pick: lists that a search gave, lists made for it, and spoiled ones.
use crate::answer::Hit;
use crate::border::Entries;
use crate::buffer::Buffers;
use crate::case::Case;
use crate::expect;
use crate::random::Random;
use crate::refusal::calls::{FOUND, Lengths};

const LAST: u32 = 2_147_483_646;
const INFINITY: u32 = 0x7f80_0000;

/// Scores that tie, the edges, and what no score may be.
const SCORES: [u32; 6] = [0, 1, 0x3f80_0000, 0x3f80_0001, 0x7f7f_ffff, INFINITY];
const NO_SCORES: [u32; 6] = [
    INFINITY + 1,
    0x7fc0_0000,
    0x8000_0000,
    0xbf80_0000,
    0xff80_0000,
    u32::MAX,
];

/// The lists and the rest of a call.
#[derive(Clone)]
struct Lists {
    documents: Vec<u32>,
    scores: Vec<u32>,
    k: u32,
    t: u32,
}

/// Picks from a full list, and from a list of its own.
pub fn of_list(entries: &dyn Entries, list: &[Hit], case: &Case, random: &mut Random) {
    let lists = Lists {
        documents: list.iter().map(|hit| hit.document).collect(),
        scores: list.iter().map(|hit| hit.bits).collect(),
        k: case.k,
        t: case.t,
    };
    pick(entries, &lists, enough(&lists, random), random);
    let length = random.below(20) as usize;
    made(entries, length, random);
}

/// A list of some length, picked from twice and then spoiled.
pub fn made(entries: &dyn Entries, length: usize, random: &mut Random) {
    let lists = lists(length, random);
    for _ in 0..2 {
        pick(entries, &lists, enough(&lists, random), random);
    }
    let mut spoiled = lists;
    let mut lent = enough(&spoiled, random);
    for _ in 0..random.within(1, 2) {
        spoil(&mut spoiled, &mut lent, random);
    }
    pick(entries, &spoiled, lent, random);
}

fn pick(entries: &dyn Entries, lists: &Lists, lent: Lengths, random: &mut Random) {
    let Lists {
        documents,
        scores,
        k,
        t,
    } = lists;
    let mut buffers = Buffers::new(random, &lent);
    let number = entries.pick(buffers.pick(documents, scores, *k, *t));
    let right = expect::pick(documents, scores, *k, *t, &lent);
    expect::found(&buffers, number, &right);
}

fn enough(lists: &Lists, random: &mut Random) -> Lengths {
    Lengths {
        hits: lists.k as usize + random.pick(&[0, 0, 1, 30]),
        answer: FOUND + random.pick(&[0, 0, 1, 5]),
        ..Lengths::default()
    }
}

fn lists(length: usize, random: &mut Random) -> Lists {
    let mut documents: Vec<_> = match random.below(3) {
        0 => (0..length as u32).collect(),
        1 => (0..length as u32).map(|i| LAST - i).collect(),
        _ => (0..length).map(|_| random.within(0, LAST)).collect(),
    };
    documents.sort_unstable();
    documents.dedup();
    let few = random.once_in(2);
    let score = |_: &u32| match few {
        true => random.pick(&SCORES),
        false => random.within(0, INFINITY),
    };
    let scores = documents.iter().map(score).collect();
    let count = documents.len() as u32;
    let around = [1, count / 2, count, count + 1, 1024];
    Lists {
        documents,
        scores,
        k: random.pick(&around).clamp(1, 1024),
        t: random.pick(&[0, count.saturating_sub(1), count, count + 1, u32::MAX]),
    }
}

/// One thing wrong, mostly.
fn spoil(lists: &mut Lists, lent: &mut Lengths, random: &mut Random) {
    let at = random.below(lists.documents.len().max(1) as u32) as usize;
    match random.below(8) {
        0 => lists.k = random.pick(&[0, 1025, u32::MAX]),
        1 => lent.hits = lists.k.clamp(1, 1024) as usize - 1,
        2 => lent.answer = random.below(FOUND as u32) as usize,
        3 => lists.scores.push(0),
        4 => _ = lists.scores.pop(),
        5 => lists.documents.push(random.pick(&[LAST + 1, u32::MAX, 0])),
        6 if at > 0 => lists.documents[at] = lists.documents[at - 1],
        _ if at < lists.scores.len() => lists.scores[at] = random.pick(&NO_SCORES),
        _ => {}
    }
}
