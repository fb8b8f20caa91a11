//! A sale's catalogue of any size, and the orders by which time is measured, each with a catalogue
//! of its own or many over one: an order is lent the words and columns that it names, as the header
//! tells callers to do.
pub mod lent;
mod workloads;

use crate::case::Case;
use crate::catalogue::Catalogue;
use crate::query::*;
use crate::random::Random;
use std::collections::BTreeMap;
use workloads::Asked;
pub use workloads::{WORKLOADS, Workload};

/// The hits that an order asks for, and the documents that it wants counted exactly.
const K: u32 = 10;
const T: u32 = 1000;

/// Words of a lot's text at the most; positions lie below.
const LENGTH: u32 = 60;

/// Micron from 15 to 25 in tenths.
const FINEST: u32 = 150;
const COARSEST: u32 = 250;

/// How many words of the same share a sale has: orders over one catalogue name them again.
const MOST: usize = 6;

/// Shares of the words that are typed: one lot in so many.
const SHARES: [u32; 8] = [3, 5, 10, 20, 50, 100, 400, 2000];

/// Shares of the lots that have all words of a phrase that is typed.
const PHRASES: [u32; 4] = [5, 10, 20, 50];

/// The case of a workload, and of a seed of its own.
pub fn case(workload: &Workload, n: u32, seed: u64) -> Case {
    let mut lots = Lots::new(n, seed);
    let order = (workload.order)(&mut lots);
    lots.catalogue.case(workload.k, T, &order)
}

/// An order over a catalogue that others share.
pub struct Drawn {
    pub workload: &'static Workload,
    pub order: Node,
}

/// A catalogue, and so many orders over it: as many of each kind, in a drawn order.
pub fn sheet(kinds: &[&'static Workload], n: u32, number: usize, seed: u64) -> (Case, Vec<Drawn>) {
    let mut lots = Lots::new(n, seed);
    let mut drawn: Vec<_> = kinds.iter().copied().cycle().take(number).collect();
    lots.random.shuffle(&mut drawn);
    let mut order = |workload: &'static Workload| {
        lots.named.clear();
        let order = (workload.order)(&mut lots);
        Drawn { workload, order }
    };
    let drawn = drawn.into_iter().map(&mut order).collect();
    (lots.catalogue.case(K, T, &match_all()), drawn)
}

/// What of a catalogue orders name again: it is made anew until there are as many as a sale has.
#[derive(Clone, Copy, PartialEq, Eq, PartialOrd, Ord)]
enum Part {
    Word,
    Pair,
    /// words that stand in the same lots
    Together(u32),
    Column,
}

/// A catalogue in the making: one text field, some lots sold already.
struct Lots {
    random: Random,
    catalogue: Catalogue,
    n: u32,
    text: u32,
    /// what there is so far, by its share
    known: BTreeMap<(Part, u32), Vec<Node>>,
    /// what the order in the making names of it
    named: Vec<Node>,
}

impl Lots {
    fn new(n: u32, seed: u64) -> Lots {
        let mut random = Random::new(seed);
        let mut catalogue = Catalogue::new(n);
        let norms: Vec<_> = (0..n).map(|_| random.within(8, 40) as u8).collect();
        let text = catalogue.field_with(24.5, Some(&norms), true);
        for document in 0..n {
            if random.once_in(50) {
                catalogue.kill(document);
            }
        }
        Lots {
            random,
            catalogue,
            n,
            text,
            known: BTreeMap::new(),
            named: Vec::new(),
        }
    }

    /// A part of a share: a new one, or where a sale has no more of them one that the order in the
    /// making does not name yet.
    fn drawn(&mut self, part: Part, share: u32, make: impl Fn(&mut Lots) -> Node) -> Node {
        let known = self.known.get(&(part, share)).cloned().unwrap_or_default();
        let node = if known.len() < MOST {
            let node = make(self);
            let known = self.known.entry((part, share)).or_default();
            known.push(node.clone());
            node
        } else {
            let other = |node: &&Node| !self.named.contains(node);
            let others: Vec<_> = known.iter().filter(other).collect();
            self.random.pick(&others).clone()
        };
        self.named.push(node.clone());
        node
    }

    /// The places of a word in a lot.
    fn places(&mut self) -> Vec<u32> {
        let number = self.random.pick(&[1, 1, 1, 2, 2, 3, 4]);
        let mut places: Vec<_> = (0..number).map(|_| self.random.below(LENGTH)).collect();
        places.sort_unstable();
        places
    }

    /// The lots in which a word stands, one in so many, with its places.
    fn run(&mut self, one_in: u32) -> Vec<(u32, Vec<u32>)> {
        let mut run = Vec::new();
        for document in 0..self.n {
            if self.random.once_in(one_in) {
                run.push((document, self.places()));
            }
        }
        run
    }

    fn leaf(&mut self, run: &[(u32, Vec<u32>)]) -> u32 {
        let share = self.n as f32 / (run.len() as f32 + 0.5);
        let run: Vec<_> = run.iter().map(|(d, places)| (*d, &places[..])).collect();
        self.catalogue
            .leaf_of_positions(self.text, share.ln_1p(), &run)
    }

    fn word(&mut self, one_in: u32) -> Node {
        self.drawn(Part::Word, one_in, |lots| {
            let run = lots.run(one_in);
            term(lots.leaf(&run))
        })
    }

    /// A word of a share that is drawn.
    fn any_word(&mut self) -> Node {
        let one_in = self.random.pick(&SHARES);
        self.word(one_in)
    }

    /// Two words that stand together in every third lot that has the first.
    fn pair(&mut self) -> Node {
        self.drawn(Part::Pair, 4, Lots::new_pair)
    }

    fn new_pair(&mut self) -> Node {
        let first = self.run(4);
        let mut second: BTreeMap<_, _> = self.run(8).into_iter().collect();
        for (document, places) in &first {
            if self.random.once_in(3) {
                let after = places.iter().map(|place| place + 1).collect();
                second.insert(*document, after);
            }
        }
        let second: Vec<_> = second.into_iter().collect();
        let leaves = [self.leaf(&first), self.leaf(&second)];
        phrase(self.text, &[(leaves[0], 0), (leaves[1], 1)])
    }

    /// So many words that all stand in one lot in so many, in every second of those together.
    fn together(&mut self, words: u32, one_in: u32) -> Node {
        self.drawn(Part::Together(words), one_in, |lots| {
            lots.new_together(words, one_in)
        })
    }

    fn new_together(&mut self, words: u32, one_in: u32) -> Node {
        let first = self.run(one_in);
        let together: Vec<_> = first.iter().map(|_| self.random.once_in(2)).collect();
        let mut terms = vec![(self.leaf(&first), 0)];
        for after in 1..words {
            let mut run: BTreeMap<_, _> = self.run(2 * one_in).into_iter().collect();
            run.extend(self.behind(&first, &together, after));
            let run: Vec<_> = run.into_iter().collect();
            terms.push((self.leaf(&run), after));
        }
        phrase(self.text, &terms)
    }

    /// Where the first word stands, so many places after it; anywhere where not together.
    fn behind(
        &mut self,
        first: &[(u32, Vec<u32>)],
        together: &[bool],
        after: u32,
    ) -> Vec<(u32, Vec<u32>)> {
        let mut behind = |((document, places), together): (&(u32, Vec<u32>), &bool)| {
            let places = match together {
                true => places.iter().map(|place| place + after).collect(),
                false => self.places(),
            };
            (*document, places)
        };
        first.iter().zip(together).map(&mut behind).collect()
    }

    /// Two words together, of a share that is drawn.
    fn any_phrase(&mut self) -> Node {
        let one_in = self.random.pick(&PHRASES);
        self.together(2, one_in)
    }

    /// Clauses as they are typed: each with its occurrence.
    fn typed(&mut self, clauses: &[(u32, Asked)]) -> Node {
        let clause = |(occurrence, asked): &(u32, Asked)| asked(self).occurring(*occurrence);
        boolean(0, clauses.iter().map(clause).collect::<Vec<_>>())
    }

    /// Words of these shares, all required.
    fn all_of<const N: usize>(&mut self, shares: [u32; N]) -> Node {
        boolean(0, shares.map(|one_in| self.word(one_in).must()))
    }

    fn any_of_eight(&mut self, msm: u32) -> Node {
        let shares = [5, 8, 10, 15, 20, 30, 50, 100];
        boolean(msm, shares.map(|one_in| self.word(one_in).should()))
    }

    /// 17 to 18.5 micron; one lot in forty was not measured.
    fn fine(&mut self) -> Node {
        self.drawn(Part::Column, 1, Lots::new_fine)
    }

    fn new_fine(&mut self) -> Node {
        let tenths = |micron: u32| Some((f64::from(micron) / 10.0).to_bits());
        let mut values = Vec::new();
        for _ in 0..self.n {
            let micron = self.random.within(FINEST, COARSEST);
            values.push(tenths(micron).filter(|_| !self.random.once_in(40)));
        }
        let column = self.catalogue.column_of_f64(&values);
        range(column, 1 + 3, 17f64.to_bits(), 18.5f64.to_bits())
    }

    /// A word, two words together, a range, and a word that must not stand there.
    fn buyer(&mut self) -> Node {
        let clauses = [
            self.word(4).must(),
            self.pair().must(),
            self.fine().filter(),
            self.word(20).must_not(),
        ];
        boolean(0, clauses)
    }

    /// Fifteen Booleans one in the other, each beside a word.
    fn deep(&mut self) -> Node {
        let mut below = self.word(3);
        for level in 0..15 {
            let beside = self.word(10 + level);
            below = match level % 3 {
                0 => boolean(0, [below.must(), beside.should()]),
                1 => boolean(0, [below.should(), beside.should()]),
                _ => boolean(0, [below.must(), beside.must_not()]),
            };
        }
        below
    }
}
