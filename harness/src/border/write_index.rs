//! The library's writer of an index: the C function behind a call.
use super::Library;
use crate::tokens::{Write, Writer};

// A slice is a pointer and a length in elements.
unsafe extern "C" {
    fn lot_write_index(
        max_doc: u32,
        fields: *const u32,
        fields_length: usize,
        tokens: *const u32,
        tokens_length: usize,
        leaf_fields: *const u32,
        leaf_fields_length: usize,
        norms: *mut u8,
        norms_length: usize,
        postings: *mut u32,
        postings_length: usize,
        positions: *mut u32,
        positions_length: usize,
        runs: *mut u32,
        runs_length: usize,
        answer: *mut u64,
        answer_length: usize,
    ) -> u32;
}

impl Writer for Library {
    fn write(&self, call: Write) -> u32 {
        let given = call.given;
        // Safe: each pointer and length is a slice's own, and the slices written don't overlap.
        unsafe {
            lot_write_index(
                given.n,
                given.fields.as_ptr(),
                given.fields.len(),
                given.tokens.as_ptr(),
                given.tokens.len(),
                given.leaf_fields.as_ptr(),
                given.leaf_fields.len(),
                call.norms.as_mut_ptr(),
                call.norms.len(),
                call.postings.as_mut_ptr(),
                call.postings.len(),
                call.positions.as_mut_ptr(),
                call.positions.len(),
                call.runs.as_mut_ptr(),
                call.runs.len(),
                call.answer.as_mut_ptr(),
                call.answer.len(),
            )
        }
    }
}
