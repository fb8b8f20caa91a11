//! Calls of the entries, each held against what is right: the judge's number or the Rust's answer,
//! and every element of every buffer.
mod pages;
pub mod picks;

use crate::border::Entries;
use crate::buffer::{Buffers, enough};
use crate::case::Case;
use crate::damage::damaged;
use crate::expect::{self, Right};
use crate::failed::has_failed_end;
use crate::random::Random;
use crate::refusal::calls::{FOUND, Lengths, PAGED};

/// Calls with one index and query.
pub struct Compare<'a> {
    entries: &'a dyn Entries,
    case: &'a Case,
    random: &'a mut Random,
    pub right: Right,
}

/// All calls for a case, and some for damaged copies of it.
pub fn all(entries: &dyn Entries, case: &Case, random: &mut Random) {
    let before = case.clone();
    let mut calls = Compare::new(entries, case, random);
    calls.asked();
    calls.refused();
    calls.pages();
    let (list, needed) = (calls.right.list, calls.right.judge.needed);
    picks::of_list(entries, &list, case, random);
    for _ in 0..2 {
        let damaged = damaged(random, case);
        // NaN ends are left out of this run
        if !has_failed_end(&damaged) {
            Compare::new(entries, &damaged, random).damaged(&needed);
        }
    }
    assert!(*case == before, "an input was written");
}

impl<'a> Compare<'a> {
    pub fn new(entries: &'a dyn Entries, case: &'a Case, random: &'a mut Random) -> Compare<'a> {
        let right = Right::new(case);
        Compare {
            entries,
            case,
            random,
            right,
        }
    }

    /// Buffers of a call that is not refused for them.
    fn enough(&mut self, k: u32, m: usize) -> Lengths {
        enough(self.random, &self.right.judge.needed, k, m)
    }

    /// One of the buffers that Search (`k`) or Page looks at is too short.
    fn too_short(&mut self, mut lent: Lengths, k: Option<u32>) -> Lengths {
        let needed = self.right.judge.needed;
        let answer = if k.is_some() { FOUND } else { PAGED };
        let hits = k.unwrap_or(0) as usize;
        let mut short = [
            (&mut lent.states, needed.states),
            (&mut lent.starts, needed.starts),
            (&mut lent.other_starts, needed.other_starts),
            (&mut lent.ranges, needed.ranges),
            (&mut lent.hits, hits),
            (&mut lent.answer, answer),
        ]
        .into_iter()
        .filter(|(_, needed)| *needed > 0)
        .collect::<Vec<_>>();
        let at = self.random.below(short.len() as u32) as usize;
        let (length, needed) = &mut short[at];
        **length = match self.random.once_in(4) {
            true => self.random.below(*needed as u32) as usize,
            false => *needed - 1,
        };
        lent
    }

    pub fn search(&mut self, k: u32, t: u32, lent: &Lengths) {
        let mut buffers = Buffers::new(self.random, lent);
        let number = self.entries.search(buffers.search(self.case, k, t));
        let right = self.right.search(k, t, lent);
        expect::found(&buffers, number, &right);
    }

    pub fn page(&mut self, target: u32, lent: &Lengths) {
        let mut buffers = Buffers::new(self.random, lent);
        let number = self.entries.page(buffers.page(self.case, target));
        let right = self.right.page(target, lent);
        expect::given(&buffers, number, &right);
    }

    /// Search twice with other rubbish and other lengths, with another k and t, and a page.
    pub fn asked(&mut self) {
        let (k, t) = (self.case.k, self.case.t);
        for _ in 0..2 {
            let lent = self.enough(k, 0);
            self.search(k, t, &lent);
        }
        let count = self.right.list.len() as u32;
        let around = [count.saturating_sub(1), count, count + 1];
        let k = self.random.pick(&around).clamp(1, 1024);
        let t = self.random.pick(&around);
        let lent = self.enough(k, 0);
        self.search(k, t, &lent);
        let target = self.random.below(self.case.n + 1);
        let m = self.random.below(count + 3) as usize;
        let lent = self.enough(k, m);
        self.page(target, &lent);
    }

    /// Calls that the caller spoils: a wrong k, a buffer too short, both.
    pub fn refused(&mut self) {
        let (k, t) = (self.case.k, self.case.t);
        let wrong = self.random.pick(&[0, 1025, u32::MAX]);
        let lent = self.enough(1025, 0);
        self.search(wrong, t, &lent);
        let lent = self.enough(k, 0);
        let short = self.too_short(lent, Some(k));
        self.search(k, t, &short);
        self.search(wrong, t, &short);
    }

    /// Calls with a damaged copy: the lowest number, whatever else is wrong.
    fn damaged(&mut self, sound: &Lengths) {
        let needed = match self.right.judge.order {
            0 => self.right.judge.needed,
            _ => *sound,
        };
        let m = self.random.below(4) as usize;
        let mut lent = Lengths {
            hits: self.case.k.min(1024) as usize,
            documents: m,
            scores: m,
            answer: FOUND,
            ..needed
        };
        if self.random.once_in(4) {
            lent.states /= 2;
            lent.scores += 1;
        }
        self.search(self.case.k, self.case.t, &lent);
        let target = self
            .random
            .pick(&[0, self.case.n / 2, self.case.n, u32::MAX]);
        self.page(target, &lent);
    }
}
