//! The generated index: fields, leaves, postings, positions, norms, live words and columns.
use super::{BY_ORDER, Readings, nan_bits, value_bits};
use crate::case::Case;
use crate::random::Random;

pub struct Index {
    pub case: Case,
    /// leaves that stand in every document of the core, so that conjunctions match
    pub dense: Vec<u32>,
    /// leaves of few documents
    pub sparse: Vec<u32>,
    /// fields with positions, each with its leaves
    pub phrases: Vec<(u32, Vec<u32>)>,
    pub readings: Readings,
}

const JUNK: u32 = 0xdead_beef;

pub fn index(random: &mut Random, readings: Readings) -> Index {
    let n = match random.below(16) {
        0 => 0,
        1 => 1,
        2 => random.pick(&[63, 64, 65]),
        3..=5 => random.within(2, 8),
        _ => random.within(9, 40),
    };
    let case = Case {
        n,
        ..Case::default()
    };
    let mut maker = Maker {
        random,
        case,
        dense: vec![],
        sparse: vec![],
    };
    maker.fields();
    maker.leaves();
    maker.columns();
    maker.failed_readings(readings);
    maker.live();
    Index {
        phrases: phrases(&maker.case),
        case: maker.case,
        dense: maker.dense,
        sparse: maker.sparse,
        readings,
    }
}

/// An index that was made elsewhere: a leaf in every third document or more counts as dense.
pub fn of(case: Case) -> Index {
    let leaves = (0..).zip(case.leaves.chunks(4));
    let leaves = leaves.filter(|(_, leaf)| leaf[2] > 0);
    let (dense, sparse): (Vec<_>, Vec<_>) = leaves.partition(|(_, leaf)| 3 * leaf[2] >= case.n);
    let numbers = |leaves: Vec<(u32, _)>| leaves.into_iter().map(|(leaf, _)| leaf).collect();
    Index {
        dense: numbers(dense),
        sparse: numbers(sparse),
        phrases: phrases(&case),
        case,
        readings: Readings::Values,
    }
}

fn phrases(case: &Case) -> Vec<(u32, Vec<u32>)> {
    let mut phrases = Vec::new();
    for (field, record) in (0..).zip(case.fields.chunks(3)) {
        let leaves = (0..).zip(case.leaves.chunks(4));
        let own = leaves.filter(|(_, leaf)| leaf[0] == field);
        let own: Vec<u32> = own.map(|(number, _)| number).collect();
        if record[2] == 1 && !own.is_empty() {
            phrases.push((field, own));
        }
    }
    phrases
}

struct Maker<'a> {
    random: &'a mut Random,
    case: Case,
    dense: Vec<u32>,
    sparse: Vec<u32>,
}

impl Maker<'_> {
    fn fields(&mut self) {
        let number = match self.random.below(40) {
            0 => 0,
            1 => 16,
            _ => self.random.within(1, 4),
        };
        for _ in 0..number {
            let any = self.random.within(0x3f80_0000, 0x4b80_0000);
            let average = self
                .random
                .pick(&[0x3f80_0000, 0x4b80_0000, 0x4020_0000, any]);
            let norms = self.random.below(2);
            let positions = u32::from(!self.random.once_in(3));
            self.case.fields.extend([average, norms, positions]);
            if norms == 1 {
                self.norms();
            }
        }
    }

    fn norms(&mut self) {
        let shape = self.random.below(3);
        let same = self.random.word() as u8;
        for _ in 0..self.case.n {
            let byte = match shape {
                0 => self.random.word() as u8,
                1 => self.random.pick(&[0, 1, 23, 24, 223, 224, 255]),
                _ => same,
            };
            self.case.norms.push(byte);
        }
    }

    fn leaves(&mut self) {
        let fields = (self.case.fields.len() / 3) as u32;
        let n = self.case.n;
        let number = self.random.within(1, n / 3 + 1);
        let core = self.random.documents(n, number);
        let number = match self.random.below(40) {
            _ if fields == 0 => 0,
            0 => 0,
            1 => 512,
            _ => self.random.within(4, 12),
        };
        let favourite = self.random.below(fields.max(1));
        let in_turn = self.random.once_in(2);
        for leaf in 0..number {
            let field = match self.random.once_in(2) {
                true => favourite,
                false => self.random.below(fields),
            };
            let (first, postings) = self.leaf_run(leaf, field, &core);
            let idf = match in_turn && field == favourite {
                true => BY_ORDER[leaf as usize % 3],
                false => self.idf(),
            };
            self.case.leaves.extend([field, first, postings, idf]);
        }
        self.end_runs_at_the_count();
    }

    /// The run of a leaf: (first posting, number). Past the twelfth leaf there is none of its own,
    /// so that the files stay short.
    fn leaf_run(&mut self, leaf: u32, field: u32, core: &[u32]) -> (u32, u32) {
        match self.random.below(8) {
            0 => (self.random.below(self.postings() + 1), 0),
            1 => self.shared_run(field),
            _ if leaf > 11 => self.shared_run(field),
            2 => {
                self.sparse.push(leaf);
                self.sparse_run(field)
            }
            _ => {
                self.dense.push(leaf);
                self.dense_run(field, core)
            }
        }
    }

    fn postings(&self) -> u32 {
        (self.case.postings.len() / 3) as u32
    }

    fn idf(&mut self) -> u32 {
        let any = self.random.within(0, 0x4280_0000);
        let ordinary = [0x3f80_0000, 0x4000_0000, 0x40a0_0000, any];
        let edges = [0, 1, 0x4280_0000, 0x3f7f_ffff, 0x3400_0000, 0x253f_ffff];
        match self.random.once_in(3) {
            true => self.random.pick(&edges),
            false => self.random.pick(&ordinary),
        }
    }

    /// An empty run may begin anywhere up to the number of postings, that included.
    fn end_runs_at_the_count(&mut self) {
        let count = self.postings();
        for leaf in self.case.leaves.chunks_mut(4) {
            if leaf[2] == 0 && self.random.once_in(2) {
                leaf[1] = count;
            }
        }
    }

    /// Few documents, taken anywhere.
    fn sparse_run(&mut self, field: u32) -> (u32, u32) {
        let number = self.random.pick(&[1, 1, 2, 3]);
        let documents = self.random.documents(self.case.n, number);
        self.run(field, &documents)
    }

    /// The core and some more, so that costs differ; the least and the most are often taken, so
    /// that they also tie.
    fn dense_run(&mut self, field: u32, core: &[u32]) -> (u32, u32) {
        let (n, least) = (self.case.n, core.len() as u32);
        let any = self.random.within(least, n);
        let more = self.random.within(least, n);
        let size = self.random.pick(&[least, any, more, any.min(more), n]);
        let mut documents = self.random.documents(n, n);
        self.random.shuffle(&mut documents);
        documents.sort_by_key(|document| !core.contains(document));
        documents.truncate(size as usize);
        documents.sort_unstable();
        self.run(field, &documents)
    }

    /// A part of an earlier leaf's run, or all of it.
    fn shared_run(&mut self, field: u32) -> (u32, u32) {
        let positions = |field: u32| self.case.fields[3 * field as usize + 2];
        let leaves = self.case.leaves.chunks(4);
        let fitting = leaves.filter(|leaf| positions(leaf[0]) == positions(field));
        let runs: Vec<_> = fitting.map(|leaf| (leaf[1], leaf[2])).collect();
        if runs.is_empty() {
            return (0, 0);
        }
        let (first, number) = self.random.pick(&runs);
        if self.random.once_in(2) {
            return (first, number);
        }
        let from = self.random.below(number + 1);
        let to = self.random.within(from, number);
        (first + from, to - from)
    }

    fn run(&mut self, field: u32, documents: &[u32]) -> (u32, u32) {
        if self.random.once_in(8) {
            self.case.postings.extend([JUNK; 3]);
        }
        let first = self.postings();
        let positions = self.case.fields[3 * field as usize + 2] == 1;
        let mut before = None;
        for document in documents {
            let (frequency, index) = match positions {
                true => self.position_list(before),
                false => (self.frequency(), 0),
            };
            before = Some((frequency, index));
            self.case.postings.extend([*document, frequency, index]);
        }
        (first, documents.len() as u32)
    }

    fn frequency(&mut self) -> u32 {
        let any = self.random.within(1, 16_777_216);
        self.random.pick(&[1, 1, 2, 3, 7, 16_777_216, any])
    }

    /// Ascending positions, often equal and rarely very large: (number, index of the first). They
    /// may be those of the posting before.
    fn position_list(&mut self, before: Option<(u32, u32)>) -> (u32, u32) {
        if let Some(before) = before
            && self.random.once_in(6)
        {
            return before;
        }
        if self.random.once_in(10) {
            self.case.positions.push(JUNK);
        }
        let first = self.case.positions.len() as u32;
        let number = self.random.pick(&[1, 2, 3, 4, 4, 6]);
        let mut positions: Vec<_> = (0..number).map(|_| self.random.below(4)).collect();
        if self.random.once_in(12) {
            positions[0] = 2_147_483_647 - self.random.below(3);
        }
        positions.sort_unstable();
        self.case.positions.extend(positions);
        (number, first)
    }

    fn columns(&mut self) {
        let number = match self.random.below(20) {
            0 => 8,
            1..=6 => 0,
            _ => self.random.within(1, 3),
        };
        for _ in 0..number {
            let kind = self.random.below(2);
            self.column(kind);
        }
    }

    fn column(&mut self, kind: u32) {
        self.case.columns.push(kind);
        let few: Vec<_> = (0..4).map(|_| value_bits(self.random, kind)).collect();
        for _ in 0..self.case.n {
            let present = u32::from(!self.random.once_in(5));
            let bits = self.random.pick(&few);
            self.case.values.push(present);
            self.case.values.extend([bits as u32, (bits >> 32) as u32]);
        }
    }

    /// More NaN values, of every sort, in half of the indexes with f64 columns; where NaN ends are
    /// asked for there is such a column.
    fn failed_readings(&mut self, readings: Readings) {
        if readings == Readings::Ends && !self.case.columns.contains(&1) {
            match self.case.columns.first_mut() {
                Some(kind) => *kind = 1,
                None => self.column(1),
            }
        }
        if readings == Readings::Recorded || self.random.once_in(2) {
            return;
        }
        let one_in = self.random.within(2, 5);
        let column = 3 * self.case.n as usize;
        for (at, value) in self.case.values.chunks_mut(3).enumerate() {
            let kind = self.case.columns[3 * at / column];
            if kind == 1 && self.random.once_in(one_in) {
                let bits = nan_bits(self.random);
                value[1..].copy_from_slice(&[bits as u32, (bits >> 32) as u32]);
            }
        }
    }

    /// No words at all, or any words; bits from N on are whatever they are.
    fn live(&mut self) {
        let shape = self.random.below(8);
        if shape < 4 {
            return;
        }
        for _ in 0..self.case.n.div_ceil(64) {
            let [a, b] = [self.random.word(), self.random.word()];
            self.case.live.push(match shape {
                4 => a,
                5 if self.random.once_in(4) => 0,
                _ => a | b,
            });
        }
    }
}
