//! Cases aimed at the windows of 64 documents in which Search goes through a tree: documents at the
//! borders of windows, windows that are empty or dead, and orders of every kind over them.
mod orders;

use crate::case::Case;
use crate::catalogue::Catalogue;
use crate::generate::{self, BY_ORDER};
use crate::random::Random;
use orders::Orders;

/// The documents of a window.
pub const WINDOW: u32 = 64;

/// Around one, two and three windows, and many windows.
pub const SIZES: [u32; 12] = [1, 63, 64, 65, 127, 128, 129, 191, 192, 193, 320, 1000];

/// Norm bytes of lengths that are and are not whole.
const NORMS: [u8; 6] = [0, 1, 12, 24, 41, 255];

/// The leaves of a field with positions, and then those of one without.
const WITH_POSITIONS: u32 = 8;
const LEAVES: u32 = 12;

/// The case of a seed. Every second has an order of the other generator's.
pub fn case(seed: u64) -> Case {
    let mut random = Random::new(seed);
    let index = Index::new(&mut random);
    if seed.is_multiple_of(2) {
        return generate::over(&mut random, index.lend(&crate::query::match_none(), [1, 0]));
    }
    let order = Orders::new(&mut random, &index).order();
    index.asked(&mut random, &order)
}

/// The case of a seed whose order is of Booleans with only children, one in the other.
pub fn of_only_children(seed: u64) -> Case {
    let mut random = Random::new(seed);
    let index = Index::new(&mut random);
    let order = Orders::new(&mut random, &index).only_children(4);
    index.asked(&mut random, &order)
}

/// An index, and what the orders over it name.
struct Index {
    catalogue: Catalogue,
    n: u32,
    /// the field with positions
    text: u32,
    /// leaves that have the documents of the core, and others, the rarest first
    core: Vec<u32>,
    others: Vec<u32>,
    /// a column in which a document's value is its number, and one of few values
    numbers: u32,
    values: u32,
}

impl Index {
    fn new(random: &mut Random) -> Index {
        let n = match random.below(40) {
            0 => 1000,
            1 | 2 => 320,
            _ => random.pick(&SIZES[..10]),
        };
        let mut maker = Maker {
            catalogue: Catalogue::new(n),
            n,
            beats: (0..n).map(|_| random.pick(&[0, 1, 1, 2, 3, 4])).collect(),
            random,
        };
        let norms: Vec<_> = (0..n).map(|_| maker.random.pick(&NORMS)).collect();
        let text = maker.catalogue.field_with(7.5, Some(&norms), true);
        let bare = maker.catalogue.field();
        let (mut core, mut others) = (vec![], vec![]);
        let shared = maker.stand();
        for leaf in 0..LEAVES {
            let mut documents = maker.stand();
            match maker.random.once_in(3) {
                true => others.push((documents.len(), leaf)),
                false => {
                    documents.extend(&shared);
                    documents.sort_unstable();
                    documents.dedup();
                    core.push(leaf);
                }
            }
            match leaf < WITH_POSITIONS {
                true => maker.leaf_of_positions(text, leaf, &documents),
                false => maker.leaf_of_frequencies(bare, &documents),
            }
        }
        others.sort_unstable();
        let others = others.into_iter().map(|(_, leaf)| leaf).collect();
        let (numbers, values) = maker.columns();
        maker.live();
        let catalogue = maker.catalogue;
        Index {
            catalogue,
            n,
            text,
            core,
            others,
            numbers,
            values,
        }
    }

    /// With any k and t.
    fn asked(&self, random: &mut Random, order: &crate::query::Node) -> Case {
        let k = random.pick(&[1, 2, 3, 10, 63, 64, 65, 1024]);
        let t = random.pick(&[0, 0, 1, 2, 9, 63, 64, u32::MAX]);
        self.lend(order, [k, t])
    }

    fn lend(&self, order: &crate::query::Node, [k, t]: [u32; 2]) -> Case {
        self.catalogue.case(k, t, order)
    }
}

struct Maker<'a> {
    random: &'a mut Random,
    catalogue: Catalogue,
    n: u32,
    /// how often the leaves with positions stand one after the other in a document
    beats: Vec<u32>,
}

impl Maker<'_> {
    /// Documents as they may stand in the windows.
    fn stand(&mut self) -> Vec<u32> {
        let windows = self.n.div_ceil(WINDOW);
        let (shape, chosen) = (self.random.below(12), self.random.below(windows));
        let (step, place) = (self.random.within(2, 5), self.random.below(WINDOW));
        let sparse = self.random.pick(&[2, 3, 8, 64, 200]);
        let mut documents: Vec<_> = (0..self.n).collect();
        documents.retain(|document| {
            let (window, at) = (document / WINDOW, document % WINDOW);
            match shape {
                0 => at == 0,
                1 => at == WINDOW - 1,
                2 => at == 0 || at == WINDOW - 1 || document + 1 == self.n,
                // one in a window, and with gaps of whole windows
                3 => at == (place + 7 * window) % WINDOW,
                4 => at == place && window % step == chosen % step,
                5 => window == chosen,
                6 => window == chosen && self.random.once_in(2),
                7 => window != chosen && self.random.once_in(2),
                8 => true,
                9 => *document == 0 || document + 1 == self.n,
                _ => self.random.once_in(sparse),
            }
        });
        documents
    }

    fn idf(&mut self) -> f32 {
        let plain = [1.0, 1.5, 2.25, 0.0, 64.0];
        match self.random.once_in(2) {
            true => f32::from_bits(self.random.pick(&BY_ORDER)),
            false => self.random.pick(&plain),
        }
    }

    /// In a document of two beats the third leaf stands at 2 and 12: so the leaves are phrases that
    /// stand as often as the document has beats. Elsewhere it stands anywhere.
    fn leaf_of_positions(&mut self, field: u32, leaf: u32, documents: &[u32]) {
        let mut run = Vec::new();
        for document in documents {
            let beats = self.beats[*document as usize];
            let mut positions: Vec<_> = (0..beats).map(|beat| 10 * beat + leaf).collect();
            if beats == 0 || self.random.once_in(8) {
                let number = self.random.within(1, 4);
                positions.extend((0..number).map(|_| self.random.below(6)));
                positions.sort_unstable();
            }
            run.push((*document, positions));
        }
        let run: Vec<_> = run.iter().map(|(d, places)| (*d, &places[..])).collect();
        let idf = self.idf();
        self.catalogue.leaf_of_positions(field, idf, &run);
    }

    fn leaf_of_frequencies(&mut self, field: u32, documents: &[u32]) {
        let frequency = |document: &u32| (*document, self.random.pick(&[1, 1, 2, 3, 1000]));
        let run: Vec<_> = documents.iter().map(frequency).collect();
        let idf = self.idf();
        self.catalogue.leaf_of_frequencies(field, idf, &run);
    }

    fn columns(&mut self) -> (u32, u32) {
        let numbers: Vec<_> = (0..self.n).map(|document| Some(document.into())).collect();
        let some = |_| match self.random.below(5) {
            0 => None,
            value => Some(f64::from(value).to_bits()),
        };
        let values: Vec<_> = (0..self.n).map(some).collect();
        (
            self.catalogue.column_of_i64(&numbers),
            self.catalogue.column_of_f64(&values),
        )
    }

    /// No live words, or some dead: whole windows, their borders, anything, everything. The bits from
    /// N on stay set.
    fn live(&mut self) {
        let windows = self.n.div_ceil(WINDOW);
        let (shape, chosen) = (self.random.below(12), self.random.below(windows));
        for document in 0..self.n {
            let (window, at) = (document / WINDOW, document % WINDOW);
            let border = at == 0 || at == WINDOW - 1 || document + 1 == self.n;
            let dead = match shape {
                0 => window == chosen,
                1 => window != chosen,
                2 => border,
                3 => !border,
                4 => self.random.once_in(2),
                5 => self.random.once_in(8),
                6 => self.random.once_in(40),
                7 => window == chosen || self.random.once_in(8),
                8 => chosen == 0,
                _ => false,
            };
            if dead {
                self.catalogue.kill(document);
            }
        }
    }
}
