//! Buffers to lend, with rubbish in and around them, and what must stand in them after a call.
use crate::border::{Page, Pick, Search, Work};
use crate::case::Case;
use crate::random::Random;
use crate::refusal::calls::{FOUND, Lengths};
use std::fmt::Debug;

/// Elements before and after the lent part.
const MARGIN: usize = 9;

/// An element that can be made of any 64 bits.
pub trait Element: Copy + PartialEq + Debug {
    fn of(word: u64) -> Self;
}

impl Element for u8 {
    fn of(word: u64) -> u8 {
        word as u8
    }
}

impl Element for u32 {
    fn of(word: u64) -> u32 {
        word as u32
    }
}

impl Element for i32 {
    fn of(word: u64) -> i32 {
        word as i32
    }
}

impl Element for i64 {
    fn of(word: u64) -> i64 {
        word as i64
    }
}

impl Element for u64 {
    fn of(word: u64) -> u64 {
        word
    }
}

/// What a buffer is filled with: anything, one word everywhere, or numbers like those in use.
#[derive(Clone, Copy)]
enum Rubbish {
    Any,
    Same(u64),
    Small,
}

impl Rubbish {
    fn new(random: &mut Random) -> Rubbish {
        match random.below(8) {
            0 => Rubbish::Same(0),
            1 => Rubbish::Same(u64::MAX),
            2 => Rubbish::Same(random.word()),
            3 | 4 => Rubbish::Small,
            _ => Rubbish::Any,
        }
    }

    fn word(self, random: &mut Random) -> u64 {
        match self {
            Rubbish::Any => random.word(),
            Rubbish::Same(word) => word,
            Rubbish::Small => random.word() % 70,
        }
    }
}

/// A buffer with a margin on either side, and a copy of all as it was.
#[derive(Clone)]
pub struct Buffer<T> {
    before: Vec<T>,
    now: Vec<T>,
}

impl<T: Element> Buffer<T> {
    pub fn new(random: &mut Random, length: usize) -> Buffer<T> {
        let rubbish = Rubbish::new(random);
        let all = length + 2 * MARGIN;
        let before: Vec<_> = (0..all).map(|_| T::of(rubbish.word(random))).collect();
        let now = before.clone();
        Buffer { before, now }
    }

    fn inner(&self) -> std::ops::Range<usize> {
        MARGIN..self.now.len() - MARGIN
    }

    pub fn lent(&mut self) -> &mut [T] {
        let inner = self.inner();
        &mut self.now[inner]
    }

    /// What stands in it now.
    pub fn held(&self) -> &[T] {
        &self.now[self.inner()]
    }

    /// Every element is as it was.
    pub fn is_kept(&self) {
        assert!(self.now == self.before, "a buffer was written");
    }

    /// The margins are as they were.
    pub fn is_kept_around(&self) {
        let inner = self.inner();
        let kept = |part: std::ops::Range<usize>| self.now[part.clone()] == self.before[part];
        let all = self.now.len();
        assert!(
            kept(0..inner.start) && kept(inner.end..all),
            "written outside of a buffer"
        );
    }

    /// These stand at the front, and all else is as it was.
    pub fn holds(&self, front: &[T]) {
        let start = MARGIN;
        let end = start + front.len();
        assert_eq!(&self.now[start..end], front, "what was written");
        assert!(
            self.now[..start] == self.before[..start],
            "written before a buffer"
        );
        assert!(self.now[end..] == self.before[end..], "written beyond");
    }

    /// From here on it counts as it is now.
    pub fn settle(&mut self) {
        self.before.copy_from_slice(&self.now);
    }
}

/// Lengths of buffers for which no call is refused that asks for k hits or m documents: often
/// exactly long enough.
pub fn enough(random: &mut Random, needed: &Lengths, k: u32, m: usize) -> Lengths {
    let mut lent = Lengths {
        hits: k as usize,
        documents: m,
        scores: m,
        answer: FOUND,
        ..*needed
    };
    if random.once_in(2) {
        return lent;
    }
    for length in [
        &mut lent.states,
        &mut lent.starts,
        &mut lent.other_starts,
        &mut lent.ranges,
        &mut lent.hits,
        &mut lent.answer,
    ] {
        *length += random.pick(&[0, 0, 1, 2, 40]);
    }
    lent
}

/// The buffers of a call of any entry.
#[derive(Clone)]
pub struct Buffers {
    pub states: Buffer<u32>,
    pub starts: Buffer<i32>,
    pub other_starts: Buffer<i32>,
    pub ranges: Buffer<u32>,
    pub hits: Buffer<i64>,
    pub documents: Buffer<u32>,
    pub scores: Buffer<u32>,
    pub answer: Buffer<u64>,
}

impl Buffers {
    pub fn new(random: &mut Random, lengths: &Lengths) -> Buffers {
        Buffers {
            states: Buffer::new(random, lengths.states),
            starts: Buffer::new(random, lengths.starts),
            other_starts: Buffer::new(random, lengths.other_starts),
            ranges: Buffer::new(random, lengths.ranges),
            hits: Buffer::new(random, lengths.hits),
            documents: Buffer::new(random, lengths.documents),
            scores: Buffer::new(random, lengths.scores),
            answer: Buffer::new(random, lengths.answer),
        }
    }

    pub fn search<'a>(&'a mut self, case: &'a Case, k: u32, t: u32) -> Search<'a> {
        Search {
            index: case.index(),
            query: &case.query,
            k,
            t,
            work: Work {
                states: self.states.lent(),
                starts: self.starts.lent(),
                other_starts: self.other_starts.lent(),
                ranges: self.ranges.lent(),
            },
            hits: self.hits.lent(),
            answer: self.answer.lent(),
        }
    }

    pub fn page<'a>(&'a mut self, case: &'a Case, target: u32) -> Page<'a> {
        Page {
            index: case.index(),
            query: &case.query,
            target,
            work: Work {
                states: self.states.lent(),
                starts: self.starts.lent(),
                other_starts: self.other_starts.lent(),
                ranges: self.ranges.lent(),
            },
            documents: self.documents.lent(),
            scores: self.scores.lent(),
            answer: self.answer.lent(),
        }
    }

    pub fn pick<'a>(
        &'a mut self,
        documents: &'a [u32],
        scores: &'a [u32],
        k: u32,
        t: u32,
    ) -> Pick<'a> {
        Pick {
            documents,
            scores,
            k,
            t,
            hits: self.hits.lent(),
            answer: self.answer.lent(),
        }
    }

    /// New outputs for a page of m documents; the rest counts as it is now.
    pub fn for_page(&mut self, random: &mut Random, m: usize) {
        self.documents = Buffer::new(random, m);
        self.scores = Buffer::new(random, m);
        self.settle();
    }

    /// After a refusal: every element of every buffer is as it was.
    pub fn are_kept(&self) {
        self.work_is_kept();
        self.hits.is_kept();
        self.documents.is_kept();
        self.scores.is_kept();
        self.answer.is_kept();
    }

    fn work_is_kept(&self) {
        self.states.is_kept();
        self.starts.is_kept();
        self.other_starts.is_kept();
        self.ranges.is_kept();
    }

    /// After success a work buffer may hold anything, and nothing around it is touched.
    pub fn work_is_kept_around(&self) {
        self.states.is_kept_around();
        self.starts.is_kept_around();
        self.other_starts.is_kept_around();
        self.ranges.is_kept_around();
    }

    pub fn settle(&mut self) {
        self.states.settle();
        self.starts.settle();
        self.other_starts.settle();
        self.ranges.settle();
        self.hits.settle();
        self.documents.settle();
        self.scores.settle();
        self.answer.settle();
    }
}
