//! The source's private functions, cut out of its text by build.rs, and a way to call each. Scores
//! are bits here.
include!(concat!(env!("OUT_DIR"), "/private.rs"));

pub fn sortable_int(bits: u32) -> i32 {
    float_to_sortable_int(f32::from_bits(bits))
}

pub fn sortable_bits(sortable: i32) -> u32 {
    sortable_int_to_float(sortable).to_bits()
}

/// The code of a document and its score.
pub fn code(document: u32, bits: u32) -> i64 {
    let document = i32::try_from(document).expect("a document up to 2147483647");
    encode(document, f32::from_bits(bits))
}

pub fn code_score(code: i64) -> u32 {
    to_score(code).to_bits()
}

pub fn code_document(code: i64) -> u32 {
    to_doc(code) as u32
}

/// The four-bit code of a number.
pub fn int4(number: u64) -> u32 {
    long_to_int4(number)
}

pub fn int4_number(code: u32) -> u64 {
    int4_to_long(code)
}
