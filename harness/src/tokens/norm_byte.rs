//! The norm byte of a number of tokens: the Rust's own int_to_byte4 where its source is there.

#[cfg(oracle)]
pub fn norm_byte(count: u32) -> u8 {
    crate::oracle::int_to_byte4(count)
}

#[cfg(not(oracle))]
pub fn norm_byte(count: u32) -> u8 {
    from_text(count)
}

/// As Lucene's SmallFloat has it: below 24 the number itself, from there on the number less 24 with
/// its four highest bits kept.
pub fn from_text(count: u32) -> u8 {
    const FREE: u32 = 24;
    let Some(above) = count.checked_sub(FREE) else {
        return count as u8;
    };
    let bits = u32::BITS - above.leading_zeros();
    let code = match bits.checked_sub(4) {
        None => above,
        Some(shift) => (above >> shift & 7) | (shift + 1) << 3,
    };
    (FREE + code) as u8
}
