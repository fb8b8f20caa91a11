//! In place of src/codec/postings_reader.rs: `PostingsEnum` as a plain list cursor over lent
//! postings, as document 01 has it. Where debug assertions are on, as in the tests, it sees to it
//! that no scorer steps past an end; the benchmark runs without them.
pub const NO_MORE_DOCS: i32 = i32::MAX;

#[derive(Clone, Copy)]
pub struct Posting {
    pub doc: u32,
    pub freq: u32,
    /// index of the first position
    pub first: u32,
}

/// Named by the bulk scorers' helpers, which never run.
#[derive(Default)]
pub struct DocAndFreqBuffer {
    pub docs: Vec<i32>,
    pub features: Vec<f32>,
    pub size: usize,
}

pub struct PostingsEnum<'a> {
    list: &'a [Posting],
    positions: Option<&'a [u32]>,
    /// postings stepped onto so far
    stepped: usize,
    doc: i32,
    /// positions of this posting read so far
    read: u32,
}

impl<'a> PostingsEnum<'a> {
    /// `positions` are the lent position words, where the caller asks for positions at all.
    pub fn new(list: &'a [Posting], positions: Option<&'a [u32]>) -> Box<Self> {
        Box::new(Self {
            list,
            positions,
            stepped: 0,
            doc: -1,
            read: 0,
        })
    }
    pub const fn doc_id(&self) -> i32 {
        self.doc
    }
    pub const fn cost(&self) -> i64 {
        self.list.len() as i64
    }
    pub fn next_doc(&mut self) -> i32 {
        debug_assert!(self.doc != NO_MORE_DOCS, "next_doc at the end");
        self.read = 0;
        self.doc = match self.list.get(self.stepped) {
            Some(posting) => posting.doc as i32,
            None => NO_MORE_DOCS,
        };
        self.stepped += 1;
        self.doc
    }
    pub fn advance(&mut self, target: i32) -> i32 {
        debug_assert!(target > self.doc, "advance to {target} at {}", self.doc);
        while self.next_doc() < target {}
        self.doc
    }
    fn posting(&self) -> Posting {
        debug_assert!(
            self.doc >= 0 && self.doc != NO_MORE_DOCS,
            "not on a posting"
        );
        self.list[self.stepped - 1]
    }
    pub fn freq(&mut self) -> u32 {
        self.posting().freq
    }
    pub fn next_position(&mut self) -> u32 {
        let posting = self.posting();
        debug_assert!(self.read < posting.freq, "positions past the frequency");
        let at = posting.first as usize + self.read as usize;
        self.read += 1;
        self.positions.expect("positions not asked for")[at]
    }

    // Named by the skipping paths, which never run.
    pub fn advance_shallow(&mut self, _: i32) {
        unreachable!()
    }
    pub fn num_levels(&self) -> usize {
        unreachable!()
    }
    pub fn doc_id_up_to(&self, _: usize) -> i32 {
        unreachable!()
    }
    pub fn max_impact_x(&self, _: usize, _: &[f32; 256]) -> f32 {
        unreachable!()
    }
    pub fn next_postings(&mut self, _: i32, _: &mut DocAndFreqBuffer) {
        unreachable!()
    }
}
