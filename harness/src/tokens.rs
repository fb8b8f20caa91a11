//! Request 2026-02, an index made from tokens: what a call of `lot_write_index` lends, and what
//! stands in its outputs afterwards.
pub mod calls;
pub mod compare;
pub mod damage;
pub mod example;
pub mod judge;
pub mod make;
pub mod norm_byte;
pub mod outputs;
pub mod sale;
pub mod wrong;

use crate::case::Case;
use crate::query::{Node, match_all};

/// Words of a token: leaf, document, position. Fields and postings have as many.
pub const WORDS: usize = 3;

/// Words written for each leaf: first posting, number of postings.
pub const RUN_WORDS: usize = 2;

/// Numbers that a call answers: postings, positions.
pub const ANSWERED: usize = 2;

pub const MOST_TOKENS: usize = 16_777_216;
pub const MOST_LEAVES: usize = 512;
pub const MOST_POSITION: u32 = 2_147_483_647;

/// Leaf, document, position.
pub type Token = [u32; WORDS];

/// What an index is made from, as a call lends it.
#[derive(Clone, Copy)]
pub struct Given<'a> {
    pub n: u32,
    pub fields: &'a [u32],
    pub tokens: &'a [u32],
    /// the field of each leaf
    pub leaf_fields: &'a [u32],
}

impl<'a> Given<'a> {
    /// The whole records of the tokens.
    pub fn records(&self) -> &'a [Token] {
        self.tokens.as_chunks().0
    }

    /// Whether the field of a leaf has positions, where both are there.
    pub fn has_positions(&self, leaf: u32) -> bool {
        let field = self.leaf_fields[leaf as usize] as usize;
        self.fields[WORDS * field + 2] == 1
    }

    /// The numbers of the fields with norms.
    pub fn with_norms(&self) -> impl Iterator<Item = u32> + use<'a> {
        let fields = (0..).zip(self.fields.chunks(WORDS));
        fields.filter(|(_, field)| field[1] == 1).map(|(at, _)| at)
    }
}

/// The same, kept.
#[derive(Clone, Debug, Default, PartialEq, Eq)]
pub struct Tokens {
    pub n: u32,
    pub fields: Vec<u32>,
    pub tokens: Vec<u32>,
    pub leaf_fields: Vec<u32>,
}

impl Tokens {
    pub fn given(&self) -> Given<'_> {
        Given {
            n: self.n,
            fields: &self.fields,
            tokens: &self.tokens,
            leaf_fields: &self.leaf_fields,
        }
    }

    /// A case of these fields and leaves, with an idf for each leaf and what was written for them.
    pub fn case(&self, idfs: &[u32], written: Written, query: &Node) -> Case {
        let runs = written.runs.chunks(RUN_WORDS);
        let leaves = self.leaf_fields.iter().zip(runs).zip(idfs);
        let leaves = leaves.flat_map(|((field, run), idf)| [*field, run[0], run[1], *idf]);
        Case {
            n: self.n,
            k: 1,
            fields: self.fields.clone(),
            leaves: leaves.collect(),
            postings: written.postings,
            positions: written.positions,
            norms: written.norms,
            query: query.words(),
            ..Case::default()
        }
    }

    /// The same with MatchAll and every idf 1, for the checks of an index.
    pub fn plain_case(&self, written: Written) -> Case {
        let idfs = vec![0x3f80_0000; self.leaf_fields.len()];
        self.case(&idfs, written, &match_all())
    }
}

/// A call. The answer is the numbers of postings and of positions.
pub struct Write<'a> {
    pub given: Given<'a>,
    pub norms: &'a mut [u8],
    pub postings: &'a mut [u32],
    pub positions: &'a mut [u32],
    pub runs: &'a mut [u32],
    pub answer: &'a mut [u64],
}

/// Gives the refusal's number, or 0 for done.
pub trait Writer: Sync {
    fn write(&self, call: Write) -> u32;
}

/// How long the outputs of a call are, in elements.
#[derive(Clone, Copy, Debug, Default, PartialEq, Eq)]
pub struct Lengths {
    pub norms: usize,
    pub postings: usize,
    pub positions: usize,
    pub runs: usize,
    pub answer: usize,
}

impl Lengths {
    /// For which no call is refused.
    pub const LONGEST: Lengths = Lengths {
        norms: usize::MAX,
        postings: usize::MAX,
        positions: usize::MAX,
        runs: usize::MAX,
        answer: usize::MAX,
    };

    /// Of the outputs that a call lends.
    pub fn of(call: &Write) -> Lengths {
        Lengths {
            norms: call.norms.len(),
            postings: call.postings.len(),
            positions: call.positions.len(),
            runs: call.runs.len(),
            answer: call.answer.len(),
        }
    }

    pub fn each(&mut self) -> [&mut usize; 5] {
        [
            &mut self.norms,
            &mut self.postings,
            &mut self.positions,
            &mut self.runs,
            &mut self.answer,
        ]
    }
}

/// What an accepted call writes, without the rest of its outputs.
#[derive(Clone, Debug, Default, PartialEq, Eq)]
pub struct Written {
    pub norms: Vec<u8>,
    pub postings: Vec<u32>,
    pub positions: Vec<u32>,
    pub runs: Vec<u32>,
}

impl Written {
    pub fn answer(&self) -> [u64; ANSWERED] {
        let postings = self.postings.len() / WORDS;
        [postings as u64, self.positions.len() as u64]
    }
}

/// The writer that the tests, the fuzz run and the benchmark hold to the judge.
#[cfg(linked)]
pub fn held() -> &'static dyn Writer {
    &crate::border::Library
}
