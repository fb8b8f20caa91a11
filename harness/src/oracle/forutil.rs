//! In place of src/codec/forutil.rs: only the size of the bulk scorers' buffers is named.
pub const BLOCK_SIZE: usize = 256;
