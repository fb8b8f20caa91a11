//! The fuzz run: one call for each seed, with random and changed words. A refused call gives the
//! judge's number and leaves every buffer. An accepted one is held to the Rust where its source is
//! there and no range has a NaN end, and always to the laws; a call that writes an index, to the
//! judge's writer.
pub mod input;
mod laws;

use crate::border::Entries;
use crate::buffer::Buffers;
use crate::case::Case;
use crate::expect;
use crate::failed::has_failed_end;
use crate::random::Random;
use crate::refusal::calls::{self, Judge, Lengths};
use crate::tokens::outputs::Outputs;
use crate::tokens::{Tokens, Writer, compare};
use input::{Inputs, lengths, lists};

/// What a call of Pick is given.
pub struct Lists {
    pub documents: Vec<u32>,
    pub scores: Vec<u32>,
    pub k: u32,
    pub t: u32,
}

/// The buffers of a call, and the numbers that tell how they are lent.
pub struct Lent<'a> {
    pub buffers: &'a mut Buffers,
    pub random: &'a mut Random,
}

/// The same of a call that writes an index.
pub struct LentOutputs<'a> {
    pub outputs: &'a mut Outputs,
    pub random: &'a mut Random,
}

/// Makes calls. Afterwards the buffers hold what a call left in them.
pub trait Lend {
    fn search(&mut self, entries: &dyn Entries, case: &Case, lent: Lent) -> u32;
    fn page(&mut self, entries: &dyn Entries, case: &Case, target: u32, lent: Lent) -> u32;
    fn pick(&mut self, entries: &dyn Entries, lists: &Lists, lent: Lent) -> u32;
    fn write(&mut self, writer: &dyn Writer, tokens: &Tokens, lent: LentOutputs) -> u32;
}

/// Lends the buffers themselves, which have margins.
pub struct Plain;

impl Lend for Plain {
    fn search(&mut self, entries: &dyn Entries, case: &Case, lent: Lent) -> u32 {
        entries.search(lent.buffers.search(case, case.k, case.t))
    }
    fn page(&mut self, entries: &dyn Entries, case: &Case, target: u32, lent: Lent) -> u32 {
        entries.page(lent.buffers.page(case, target))
    }
    fn pick(&mut self, entries: &dyn Entries, lists: &Lists, lent: Lent) -> u32 {
        let Lists { k, t, .. } = *lists;
        entries.pick(lent.buffers.pick(&lists.documents, &lists.scores, k, t))
    }
    fn write(&mut self, writer: &dyn Writer, tokens: &Tokens, lent: LentOutputs) -> u32 {
        writer.write(lent.outputs.write(tokens.given()))
    }
}

/// To what accepted calls are held, beside the laws.
#[derive(Clone, Copy, Debug, PartialEq, Eq)]
pub enum Against {
    Rust,
    LawsAlone,
}

impl Against {
    /// The most that this build has.
    pub const MOST: Against = if cfg!(oracle) {
        Against::Rust
    } else {
        Against::LawsAlone
    };
}

/// A call that was made: its entry (0 Search, 1 Page, 2 Pick, 3 the writer of an index) and the
/// number that it gave.
pub struct Made {
    pub entry: usize,
    pub number: u32,
    /// an accepted call that was compared with the Rust
    pub by_rust: bool,
    /// an accepted call with a NaN end, which was compared with the same order crossed
    pub crossed: bool,
}

/// The calls of one library.
pub struct Fuzz<'a> {
    pub entries: &'a dyn Entries,
    pub writer: &'a dyn Writer,
    pub inputs: &'a Inputs,
    pub against: Against,
    pub lend: &'a mut dyn Lend,
}

/// One call of a library.
enum Call<'a> {
    Search(&'a Case),
    Page(&'a Case, u32),
    Pick(&'a Lists),
}

impl Fuzz<'_> {
    /// The call of a seed; panics where it is not right.
    pub fn call(&mut self, seed: u64) -> Made {
        let mut random = Random::new(seed);
        let entry = random.pick(&[0, 0, 0, 1, 1, 1, 2, 3]);
        let mut failed_end = false;
        let number = match entry {
            2 => self.pick(&lists(&mut random), &mut random),
            3 => self.write(&mut random),
            _ => {
                let case = self.inputs.case(&mut random);
                failed_end = has_failed_end(&case);
                self.asked(entry, &case, &mut random)
            }
        };
        let by_rust = entry < 3 && !failed_end && self.against == Against::Rust;
        Made {
            entry,
            number,
            by_rust: number == 0 && by_rust,
            crossed: number == 0 && failed_end,
        }
    }

    /// Search or Page.
    fn asked(&mut self, entry: usize, case: &Case, random: &mut Random) -> u32 {
        match entry {
            0 => self.search(case, random),
            _ => self.page(case, random),
        }
    }

    fn number(&mut self, call: Call, buffers: &mut Buffers, random: &mut Random) -> u32 {
        let lent = Lent { buffers, random };
        match call {
            Call::Search(case) => self.lend.search(self.entries, case, lent),
            Call::Page(case, target) => self.lend.page(self.entries, case, target, lent),
            Call::Pick(lists) => self.lend.pick(self.entries, lists, lent),
        }
    }

    fn search(&mut self, case: &Case, random: &mut Random) -> u32 {
        let judge = Judge::new(case);
        let lent = lengths(random, case.k, &judge.needed);
        let mut buffers = Buffers::new(random, &lent);
        let number = self.number(Call::Search(case), &mut buffers, random);
        match judge.search(case.k, &lent) {
            0 => {
                assert_eq!(number, 0, "the number of an accepted call");
                self.asked_of_rust(case, || rust::search(case, &lent, &buffers));
                self.search_laws(case, &judge, &buffers, random);
            }
            refused => expect::found(&buffers, number, &Err(refused)),
        }
        number
    }

    fn page(&mut self, case: &Case, random: &mut Random) -> u32 {
        let judge = Judge::new(case);
        let lent = lengths(random, 0, &judge.needed);
        let after = case.n.saturating_add(1);
        let targets = [0, 0, case.n / 2, case.n / 2, case.n, after, u32::MAX];
        let target = random.pick(&targets);
        let mut buffers = Buffers::new(random, &lent);
        let number = self.number(Call::Page(case, target), &mut buffers, random);
        match judge.page(target, &lent) {
            0 => {
                assert_eq!(number, 0, "the number of an accepted call");
                self.asked_of_rust(case, || rust::page(case, target, &lent, &buffers));
                self.page_laws(case, &judge, target, &buffers, random);
            }
            refused => expect::given(&buffers, number, &Err(refused)),
        }
        number
    }

    fn pick(&mut self, lists: &Lists, random: &mut Random) -> u32 {
        let lent = lengths(random, lists.k, &Lengths::default());
        let mut buffers = Buffers::new(random, &lent);
        let number = self.number(Call::Pick(lists), &mut buffers, random);
        match calls::pick(&lists.documents, &lists.scores, lists.k, &lent) {
            0 => {
                assert_eq!(number, 0, "the number of an accepted call");
                self.held_to_rust(|| rust::pick(lists, &lent, &buffers));
                self.pick_laws(lists, &buffers, random);
            }
            refused => expect::found(&buffers, number, &Err(refused)),
        }
        number
    }

    /// Twice the same, with other rubbish.
    pub fn write(&mut self, random: &mut Random) -> u32 {
        let tokens = input::tokens(random);
        let lent = input::outputs(random, &tokens);
        let mut number = 0;
        for _ in 0..2 {
            let mut outputs = Outputs::new(random, &lent);
            let own = LentOutputs {
                outputs: &mut outputs,
                random,
            };
            number = self.lend.write(self.writer, &tokens, own);
            compare::after(&outputs, number, &tokens, &lent);
        }
        number
    }

    /// The Rust, which orders NaN, is not asked about NaN ends.
    fn asked_of_rust(&self, case: &Case, held: impl FnOnce()) {
        if !has_failed_end(case) {
            self.held_to_rust(held);
        }
    }

    fn held_to_rust(&self, held: impl FnOnce()) {
        if self.against == Against::Rust {
            held();
        }
    }
}

/// The Rust's answer to an accepted call, bit for bit, and every element of every buffer.
#[cfg(oracle)]
mod rust {
    use super::*;
    use crate::expect::Right;

    pub fn search(case: &Case, lent: &Lengths, buffers: &Buffers) {
        let right = Right::new(case).search(case.k, case.t, lent);
        expect::found(buffers, 0, &right);
    }
    pub fn page(case: &Case, target: u32, lent: &Lengths, buffers: &Buffers) {
        expect::given(buffers, 0, &Right::new(case).page(target, lent));
    }
    pub fn pick(lists: &Lists, lent: &Lengths, buffers: &Buffers) {
        let Lists { k, t, .. } = *lists;
        let right = expect::pick(&lists.documents, &lists.scores, k, t, lent);
        expect::found(buffers, 0, &right);
    }
}

#[cfg(not(oracle))]
mod rust {
    use super::*;

    pub fn search(_: &Case, _: &Lengths, _: &Buffers) {
        unreachable!("built without the Rust source");
    }
    pub fn page(_: &Case, _: u32, _: &Lengths, _: &Buffers) {
        unreachable!("built without the Rust source");
    }
    pub fn pick(_: &Lists, _: &Lengths, _: &Buffers) {
        unreachable!("built without the Rust source");
    }
}
