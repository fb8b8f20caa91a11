//! The library's four entries: what a call lends, and the C functions that stand behind it.
use crate::case::Case;

/// The lent index.
#[derive(Clone, Copy)]
pub struct Index<'a> {
    pub n: u32,
    pub fields: &'a [u32],
    pub leaves: &'a [u32],
    pub postings: &'a [u32],
    pub positions: &'a [u32],
    pub norms: &'a [u8],
    pub live: &'a [u64],
    pub columns: &'a [u32],
    pub values: &'a [u32],
}

/// The lent work buffers.
pub struct Work<'a> {
    pub states: &'a mut [u32],
    pub starts: &'a mut [i32],
    pub other_starts: &'a mut [i32],
    pub ranges: &'a mut [u32],
}

/// A call of Search. A hit is its code; the answer is hits held, count, and 1 for the mark.
pub struct Search<'a> {
    pub index: Index<'a>,
    pub query: &'a [u32],
    pub k: u32,
    pub t: u32,
    pub work: Work<'a>,
    pub hits: &'a mut [i64],
    pub answer: &'a mut [u64],
}

/// A call of Page. The answer is how many are given, and the next match.
pub struct Page<'a> {
    pub index: Index<'a>,
    pub query: &'a [u32],
    pub target: u32,
    pub work: Work<'a>,
    pub documents: &'a mut [u32],
    pub scores: &'a mut [u32],
    pub answer: &'a mut [u64],
}

/// A call of Pick, which answers as Search does.
pub struct Pick<'a> {
    pub documents: &'a [u32],
    pub scores: &'a [u32],
    pub k: u32,
    pub t: u32,
    pub hits: &'a mut [i64],
    pub answer: &'a mut [u64],
}

/// Each entry gives the refusal's number, or 0 for done.
pub trait Entries: Sync {
    fn search(&self, call: Search) -> u32;
    fn page(&self, call: Page) -> u32;
    fn pick(&self, call: Pick) -> u32;
}

impl Case {
    pub fn index(&self) -> Index<'_> {
        Index {
            n: self.n,
            fields: &self.fields,
            leaves: &self.leaves,
            postings: &self.postings,
            positions: &self.positions,
            norms: &self.norms,
            live: &self.live,
            columns: &self.columns,
            values: &self.values,
        }
    }
}

#[cfg(linked)]
pub use library::Library;

#[cfg(linked)]
mod write_index;

#[cfg(linked)]
mod library {
    use super::{Entries, Page, Pick, Search};

    // A slice is a pointer and a length in elements.
    unsafe extern "C" {
        fn lot_search(
            max_doc: u32,
            fields: *const u32,
            fields_length: usize,
            leaves: *const u32,
            leaves_length: usize,
            postings: *const u32,
            postings_length: usize,
            positions: *const u32,
            positions_length: usize,
            norms: *const u8,
            norms_length: usize,
            live: *const u64,
            live_length: usize,
            columns: *const u32,
            columns_length: usize,
            values: *const u32,
            values_length: usize,
            query: *const u32,
            query_length: usize,
            k: u32,
            t: u32,
            states: *mut u32,
            states_length: usize,
            starts: *mut i32,
            starts_length: usize,
            other_starts: *mut i32,
            other_starts_length: usize,
            ranges: *mut u32,
            ranges_length: usize,
            hits: *mut i64,
            hits_length: usize,
            answer: *mut u64,
            answer_length: usize,
        ) -> u32;

        fn lot_page(
            max_doc: u32,
            fields: *const u32,
            fields_length: usize,
            leaves: *const u32,
            leaves_length: usize,
            postings: *const u32,
            postings_length: usize,
            positions: *const u32,
            positions_length: usize,
            norms: *const u8,
            norms_length: usize,
            live: *const u64,
            live_length: usize,
            columns: *const u32,
            columns_length: usize,
            values: *const u32,
            values_length: usize,
            query: *const u32,
            query_length: usize,
            target: u32,
            states: *mut u32,
            states_length: usize,
            starts: *mut i32,
            starts_length: usize,
            other_starts: *mut i32,
            other_starts_length: usize,
            ranges: *mut u32,
            ranges_length: usize,
            documents: *mut u32,
            documents_length: usize,
            scores: *mut u32,
            scores_length: usize,
            answer: *mut u64,
            answer_length: usize,
        ) -> u32;

        fn lot_pick(
            documents: *const u32,
            documents_length: usize,
            scores: *const u32,
            scores_length: usize,
            k: u32,
            t: u32,
            hits: *mut i64,
            hits_length: usize,
            answer: *mut u64,
            answer_length: usize,
        ) -> u32;
    }

    /// The proved library.
    pub struct Library;

    impl Entries for Library {
        fn search(&self, call: Search) -> u32 {
            let (index, work) = (call.index, call.work);
            // Safe: each pointer and length is a slice's own, and the slices written don't overlap.
            unsafe {
                lot_search(
                    index.n,
                    index.fields.as_ptr(),
                    index.fields.len(),
                    index.leaves.as_ptr(),
                    index.leaves.len(),
                    index.postings.as_ptr(),
                    index.postings.len(),
                    index.positions.as_ptr(),
                    index.positions.len(),
                    index.norms.as_ptr(),
                    index.norms.len(),
                    index.live.as_ptr(),
                    index.live.len(),
                    index.columns.as_ptr(),
                    index.columns.len(),
                    index.values.as_ptr(),
                    index.values.len(),
                    call.query.as_ptr(),
                    call.query.len(),
                    call.k,
                    call.t,
                    work.states.as_mut_ptr(),
                    work.states.len(),
                    work.starts.as_mut_ptr(),
                    work.starts.len(),
                    work.other_starts.as_mut_ptr(),
                    work.other_starts.len(),
                    work.ranges.as_mut_ptr(),
                    work.ranges.len(),
                    call.hits.as_mut_ptr(),
                    call.hits.len(),
                    call.answer.as_mut_ptr(),
                    call.answer.len(),
                )
            }
        }

        fn page(&self, call: Page) -> u32 {
            let (index, work) = (call.index, call.work);
            // Safe: as for Search.
            unsafe {
                lot_page(
                    index.n,
                    index.fields.as_ptr(),
                    index.fields.len(),
                    index.leaves.as_ptr(),
                    index.leaves.len(),
                    index.postings.as_ptr(),
                    index.postings.len(),
                    index.positions.as_ptr(),
                    index.positions.len(),
                    index.norms.as_ptr(),
                    index.norms.len(),
                    index.live.as_ptr(),
                    index.live.len(),
                    index.columns.as_ptr(),
                    index.columns.len(),
                    index.values.as_ptr(),
                    index.values.len(),
                    call.query.as_ptr(),
                    call.query.len(),
                    call.target,
                    work.states.as_mut_ptr(),
                    work.states.len(),
                    work.starts.as_mut_ptr(),
                    work.starts.len(),
                    work.other_starts.as_mut_ptr(),
                    work.other_starts.len(),
                    work.ranges.as_mut_ptr(),
                    work.ranges.len(),
                    call.documents.as_mut_ptr(),
                    call.documents.len(),
                    call.scores.as_mut_ptr(),
                    call.scores.len(),
                    call.answer.as_mut_ptr(),
                    call.answer.len(),
                )
            }
        }

        fn pick(&self, call: Pick) -> u32 {
            // Safe: as for Search.
            unsafe {
                lot_pick(
                    call.documents.as_ptr(),
                    call.documents.len(),
                    call.scores.as_ptr(),
                    call.scores.len(),
                    call.k,
                    call.t,
                    call.hits.as_mut_ptr(),
                    call.hits.len(),
                    call.answer.as_mut_ptr(),
                    call.answer.len(),
                )
            }
        }
    }
}
