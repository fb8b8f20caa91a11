//! All of the unchanged Rust's sim.rs; a length as an f32 is Rust's `as`.
use super::{numbers, single};
use crate::oracle::{self, private};

const AVERAGES: [u32; 6] = [
    0x3f80_0000,
    0x3f80_0001,
    0x406c_cccd,
    0x418a_0000,
    0x47f1_2065,
    0x4b80_0000,
];
const BOOSTS: [u32; 4] = [0x3f80_0000, 0x3dcc_cccd, 0x4060_0001, 0x4780_0000];
const IDFS: [u32; 4] = [0x3f80_0000, 0x3e93_4b11, 0x40e3_f7cf, 0x427f_ffff];
const FREQUENCIES: [u32; 4] = [1, 2, 7, 16_777_216];
const NORMS: [u8; 8] = [0, 1, 2, 24, 41, 128, 224, 255];

pub fn text() -> String {
    let mut text: String = (0..=255).map(decoded).collect();
    text.extend((0..1024).chain([i32::MAX as u32]).map(code));
    text += "\n";
    for average in AVERAGES {
        let inverses = oracle::inverses(average).map(f32::from_bits);
        text.extend(inverses.map(single));
        text.extend((0..128).map(|point| score(average, point)));
    }
    text.extend((0..496).map(four_bits));
    text.extend(numbers(4).take(256).enumerate().map(any_four_bits));
    text
}

/// A four-bit code's number, and the codes of the numbers beside it and of itself.
fn four_bits(code: u32) -> String {
    let number = private::int4_number(code);
    let beside = [number.wrapping_sub(1), number, number.wrapping_add(1)];
    let [below, own, above] = beside.map(private::int4);
    format!("{number} {below} {own} {above} \n")
}

/// The code of a number from a seed, of each length in turn, and the number that the code stands for.
fn any_four_bits((turn, x): (usize, u64)) -> String {
    let code = private::int4(x >> (turn % 64));
    format!("{code} {} \n", private::int4_number(code))
}

/// The code of a length that has one.
fn code(length: u32) -> String {
    match length > i32::MAX as u32 {
        true => "- ".into(),
        false => format!("{} ", oracle::int_to_byte4(length)),
    }
}

/// A byte's length, its code and those of the lengths beside it, and the length as an f32.
fn decoded(norm: u8) -> String {
    let length = oracle::length(norm);
    let beside = [length.wrapping_sub(1), length, length + 1];
    format!(
        "{length} {}{}",
        beside.map(code).concat(),
        single(length as f32)
    )
}

fn score(average: u32, point: usize) -> String {
    let [boost, idf] = [BOOSTS, IDFS].map(|table| table[point / 32]);
    let (frequency, norm) = (FREQUENCIES[point / 8 % 4], NORMS[point % 8]);
    let bits = oracle::bm25(boost, idf, average, frequency, norm);
    single(f32::from_bits(bits))
}
