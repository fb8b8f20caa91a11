//! The mappings of everything that a call lends.
use crate::mapping::Mapping;
use crate::writing::Writing;
use harness::border::{Entries, Index, Page, Pick, Search, Work};
use harness::buffer::{Buffer, Buffers, Element};
use harness::case::Case;
use harness::fuzz::input::ROOM;
use harness::fuzz::{Lend, Lent, LentOutputs, Lists};
use harness::random::Random;
use harness::tokens::{Tokens, Writer};

/// The lists of an index, which a call may only read.
struct IndexLists {
    n: u32,
    fields: Mapping<u32>,
    leaves: Mapping<u32>,
    postings: Mapping<u32>,
    positions: Mapping<u32>,
    norms: Mapping<u8>,
    live: Mapping<u64>,
    columns: Mapping<u32>,
    values: Mapping<u32>,
}

/// The work buffers.
struct Desk {
    states: Mapping<u32>,
    starts: Mapping<i32>,
    other_starts: Mapping<i32>,
    ranges: Mapping<u32>,
}

pub struct Memory {
    index: IndexLists,
    query: Mapping<u32>,
    picked: Mapping<u32>,
    picked_scores: Mapping<u32>,
    desk: Desk,
    hits: Mapping<i64>,
    documents: Mapping<u32>,
    scores: Mapping<u32>,
    answer: Mapping<u64>,
    writing: Writing,
}

impl IndexLists {
    fn new() -> IndexLists {
        IndexLists {
            n: 0,
            fields: Mapping::new(ROOM),
            leaves: Mapping::new(ROOM),
            postings: Mapping::new(ROOM),
            positions: Mapping::new(ROOM),
            norms: Mapping::new(ROOM),
            live: Mapping::new(ROOM),
            columns: Mapping::new(ROOM),
            values: Mapping::new(ROOM),
        }
    }

    fn lend(&mut self, case: &Case, random: &mut Random) {
        self.n = case.n;
        self.fields.lend(&case.fields, random);
        self.leaves.lend(&case.leaves, random);
        self.postings.lend(&case.postings, random);
        self.positions.lend(&case.positions, random);
        self.norms.lend(&case.norms, random);
        self.live.lend(&case.live, random);
        self.columns.lend(&case.columns, random);
        self.values.lend(&case.values, random);
    }

    fn index(&self) -> Index<'_> {
        Index {
            n: self.n,
            fields: self.fields.slice(),
            leaves: self.leaves.slice(),
            postings: self.postings.slice(),
            positions: self.positions.slice(),
            norms: self.norms.slice(),
            live: self.live.slice(),
            columns: self.columns.slice(),
            values: self.values.slice(),
        }
    }
}

impl Desk {
    fn new() -> Desk {
        Desk {
            states: Mapping::new(ROOM),
            starts: Mapping::new(ROOM),
            other_starts: Mapping::new(ROOM),
            ranges: Mapping::new(ROOM),
        }
    }

    fn work(&mut self) -> Work<'_> {
        Work {
            states: self.states.slice_mut(),
            starts: self.starts.slice_mut(),
            other_starts: self.other_starts.slice_mut(),
            ranges: self.ranges.slice_mut(),
        }
    }
}

impl Memory {
    pub fn new() -> Memory {
        Memory {
            index: IndexLists::new(),
            query: Mapping::new(ROOM),
            picked: Mapping::new(ROOM),
            picked_scores: Mapping::new(ROOM),
            desk: Desk::new(),
            hits: Mapping::new(ROOM),
            documents: Mapping::new(ROOM),
            scores: Mapping::new(ROOM),
            answer: Mapping::new(ROOM),
            writing: Writing::new(),
        }
    }

    fn lend(&mut self, case: &Case, random: &mut Random) {
        self.index.lend(case, random);
        self.query.lend(&case.query, random);
    }

    fn lend_lists(&mut self, lists: &Lists, random: &mut Random) {
        self.picked.lend(&lists.documents, random);
        self.picked_scores.lend(&lists.scores, random);
    }

    /// The buffers as they are before a call.
    fn put(&mut self, buffers: &Buffers, random: &mut Random) {
        self.desk.states.put(buffers.states.held(), random);
        self.desk.starts.put(buffers.starts.held(), random);
        let other_starts = buffers.other_starts.held();
        self.desk.other_starts.put(other_starts, random);
        self.desk.ranges.put(buffers.ranges.held(), random);
        self.hits.put(buffers.hits.held(), random);
        self.documents.put(buffers.documents.held(), random);
        self.scores.put(buffers.scores.held(), random);
        self.answer.put(buffers.answer.held(), random);
    }

    /// What stands in the buffers after a call.
    fn take(&self, buffers: &mut Buffers) {
        take(&self.desk.states, &mut buffers.states);
        take(&self.desk.starts, &mut buffers.starts);
        take(&self.desk.other_starts, &mut buffers.other_starts);
        take(&self.desk.ranges, &mut buffers.ranges);
        take(&self.hits, &mut buffers.hits);
        take(&self.documents, &mut buffers.documents);
        take(&self.scores, &mut buffers.scores);
        take(&self.answer, &mut buffers.answer);
    }

    fn call_search(&mut self, k: u32, t: u32) -> Search<'_> {
        Search {
            index: self.index.index(),
            query: self.query.slice(),
            k,
            t,
            work: self.desk.work(),
            hits: self.hits.slice_mut(),
            answer: self.answer.slice_mut(),
        }
    }

    fn call_page(&mut self, target: u32) -> Page<'_> {
        Page {
            index: self.index.index(),
            query: self.query.slice(),
            target,
            work: self.desk.work(),
            documents: self.documents.slice_mut(),
            scores: self.scores.slice_mut(),
            answer: self.answer.slice_mut(),
        }
    }

    fn call_pick(&mut self, k: u32, t: u32) -> Pick<'_> {
        Pick {
            documents: self.picked.slice(),
            scores: self.picked_scores.slice(),
            k,
            t,
            hits: self.hits.slice_mut(),
            answer: self.answer.slice_mut(),
        }
    }
}

/// Each slice stands at one end of its mapping, as the seed has it.
impl Lend for Memory {
    fn search(&mut self, entries: &dyn Entries, case: &Case, lent: Lent) -> u32 {
        let Lent { buffers, random } = lent;
        self.lend(case, random);
        self.put(buffers, random);
        let number = entries.search(self.call_search(case.k, case.t));
        self.take(buffers);
        number
    }

    fn page(&mut self, entries: &dyn Entries, case: &Case, target: u32, lent: Lent) -> u32 {
        let Lent { buffers, random } = lent;
        self.lend(case, random);
        self.put(buffers, random);
        let number = entries.page(self.call_page(target));
        self.take(buffers);
        number
    }

    fn pick(&mut self, entries: &dyn Entries, lists: &Lists, lent: Lent) -> u32 {
        let Lent { buffers, random } = lent;
        self.lend_lists(lists, random);
        self.put(buffers, random);
        let number = entries.pick(self.call_pick(lists.k, lists.t));
        self.take(buffers);
        number
    }

    fn write(&mut self, writer: &dyn Writer, tokens: &Tokens, lent: LentOutputs) -> u32 {
        let LentOutputs { outputs, random } = lent;
        self.writing.call(writer, tokens, outputs, random)
    }
}

pub fn take<T: Element>(mapping: &Mapping<T>, buffer: &mut Buffer<T>) {
    mapping.is_kept_around();
    buffer.lent().copy_from_slice(mapping.slice());
}
