//! The outputs of a call, with rubbish in and around them, and what must stand in them after it.
use super::{ANSWERED, Given, Lengths, WORDS, Write, Written};
use crate::buffer::Buffer;
use crate::random::Random;

#[derive(Clone)]
pub struct Outputs {
    pub norms: Buffer<u8>,
    pub postings: Buffer<u32>,
    pub positions: Buffer<u32>,
    pub runs: Buffer<u32>,
    pub answer: Buffer<u64>,
}

impl Outputs {
    pub fn new(random: &mut Random, lengths: &Lengths) -> Outputs {
        Outputs {
            norms: Buffer::new(random, lengths.norms),
            postings: Buffer::new(random, lengths.postings),
            positions: Buffer::new(random, lengths.positions),
            runs: Buffer::new(random, lengths.runs),
            answer: Buffer::new(random, lengths.answer),
        }
    }

    pub fn write<'a>(&'a mut self, given: Given<'a>) -> Write<'a> {
        Write {
            given,
            norms: self.norms.lent(),
            postings: self.postings.lent(),
            positions: self.positions.lent(),
            runs: self.runs.lent(),
            answer: self.answer.lent(),
        }
    }

    /// After a refusal: every element of every output is as it was.
    pub fn are_kept(&self) {
        self.norms.is_kept();
        self.postings.is_kept();
        self.positions.is_kept();
        self.runs.is_kept();
        self.answer.is_kept();
    }

    /// This stands at the fronts, and all else is as it was.
    pub fn hold(&self, right: &Written) {
        self.answer.holds(&right.answer());
        self.runs.holds(&right.runs);
        self.postings.holds(&right.postings);
        self.positions.holds(&right.positions);
        self.norms.holds(&right.norms);
    }

    /// What an accepted call wrote, cut where its answer says.
    pub fn told(&self, needed: &Lengths) -> Written {
        let [postings, positions] = self.answer.held()[..ANSWERED] else {
            panic!("an answer of two numbers");
        };
        Written {
            norms: self.norms.held()[..needed.norms].to_vec(),
            postings: self.postings.held()[..WORDS * postings as usize].to_vec(),
            positions: self.positions.held()[..positions as usize].to_vec(),
            runs: self.runs.held()[..needed.runs].to_vec(),
        }
    }
}
