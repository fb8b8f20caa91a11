//! A face before src/sim.rs, which is compiled unchanged as `sim_source`. Document 01 lends idf and
//! average as f32 bits where `create_weight` works them out from counts. So that `create_weight`
//! runs unchanged, these two give back the bits that segment.rs puts in place of the counts.
pub use crate::sim_source::{Bm25, byte4_to_int, idf_sum, int_to_byte4};

pub fn idf(idf_bits: u64, _doc_count: u64) -> f32 {
    f32::from_bits(u32::try_from(idf_bits).unwrap())
}

pub fn avg_field_length(average_bits: u64, _doc_count: u64) -> f32 {
    f32::from_bits(u32::try_from(average_bits).unwrap())
}
