//! `as f32`, `total_cmp` and sums are the machine's and Rust's; `next_up` is the unchanged Rust's.
use super::{double, numbers, single, xorshift};
use crate::oracle;

const SIGN: u64 = 1 << 63;

/// Zeros, subnormal, normal, infinite, and NaNs with several payloads, of both signs.
const KINDS: [u64; 20] = [
    0x0000_0000_0000_0000,
    0x8000_0000_0000_0000,
    0x0000_0000_0000_0001,
    0x8000_0000_0000_0001,
    0x000f_ffff_ffff_ffff,
    0x0010_0000_0000_0000,
    0x3ff0_0000_0000_0000,
    0xbff0_0000_0000_0000,
    0x3ff0_0000_0000_0001,
    0xbff0_0000_0000_0001,
    0x7fef_ffff_ffff_ffff,
    0xffef_ffff_ffff_ffff,
    0x7ff0_0000_0000_0000,
    0xfff0_0000_0000_0000,
    0x7ff0_0000_0000_0001,
    0xfff0_0000_0000_0001,
    0x7ff8_0000_0000_0000,
    0xfff8_0000_0000_0000,
    0x7fff_ffff_ffff_ffff,
    0xffff_ffff_ffff_ffff,
];

/// Where narrowing takes one step or another: 0, 2^-1074, the largest subnormal f64, 2^-1022, 2^-150
/// and the next, 2^-149, 1.5 × 2^-149 and the one before, the last tie below 2^-126, 2^-126 and the one
/// before, 2^-125 + 2^-149, two ties above 1, the largest f32, 2^128 − 2^103 and the one before, 2^128,
/// the largest f64.
const BORDERS: [u64; 20] = [
    0x0000_0000_0000_0000,
    0x0000_0000_0000_0001,
    0x000f_ffff_ffff_ffff,
    0x0010_0000_0000_0000,
    0x3690_0000_0000_0000,
    0x3690_0000_0000_0001,
    0x36a0_0000_0000_0000,
    0x36a7_ffff_ffff_ffff,
    0x36a8_0000_0000_0000,
    0x380f_ffff_e000_0000,
    0x380f_ffff_ffff_ffff,
    0x3810_0000_0000_0000,
    0x3820_0000_1000_0000,
    0x3ff0_0000_1000_0000,
    0x3ff0_0000_3000_0000,
    0x47ef_ffff_e000_0000,
    0x47ef_ffff_efff_ffff,
    0x47ef_ffff_f000_0000,
    0x47f0_0000_0000_0000,
    0x7fef_ffff_ffff_ffff,
];

pub fn text() -> String {
    let mut text = String::new();
    text.extend(KINDS.map(narrowed));
    for exponents in [0..2, 868..1155, 2045..2047] {
        text.extend(exponents.map(narrowed_at));
    }
    let any = numbers(1).map(|x| 0x3660_0000_0000_0000 + x % 0x1220_0000_0000_0000);
    text.extend(any.take(500).map(narrowed));
    text.extend(BORDERS.map(|bits| narrowed_around(bits) + &narrowed_around(bits ^ SIGN)));
    text += &narrowed_near();
    text.extend((0..8).map(lengths_at));
    text.extend((0..512).map(next_ups));
    text.extend(KINDS.map(below_kinds));
    text + &sums()
}

fn narrowed(bits: u64) -> String {
    single(f64::from_bits(bits) as f32)
}

fn narrowed_around(bits: u64) -> String {
    let four = [
        bits.wrapping_sub(1),
        bits,
        bits.wrapping_add(1),
        bits ^ SIGN,
    ];
    four.map(narrowed).concat()
}

/// The start of the values with an exponent, two ties above it, and the last tie below the next.
fn narrowed_at(exponent: u64) -> String {
    let half = match exponent {
        ..874 => 1 << 51,
        874..897 => 1 << (925 - exponent),
        _ => 1 << 28,
    };
    let [start, next] = [exponent, exponent + 1].map(|e| e << 52);
    let four = [start, start + half, start + 3 * half, next - half];
    four.map(narrowed_around).concat()
}

/// The sign and the digits of a pattern, with an exponent from −152 to −124 or from 126 to 129.
fn near(bits: u64) -> u64 {
    let field = match bits % 33 {
        n @ ..29 => 871 + n,
        n => 1120 + n,
    };
    bits & !(0x7ff << 52) | field << 52
}

/// Ten thousand patterns, each second one near a border: after each twenty the digest of all so far.
fn narrowed_near() -> String {
    let (mut digest, mut text) = (0, String::new());
    for (turn, bits) in (1..).zip(numbers(3).take(5000)) {
        for bits in [bits, near(bits)] {
            let narrowed = f64::from_bits(bits) as f32;
            let nan = narrowed.is_nan();
            let bits = if nan { 0x7fc0_0000 } else { narrowed.to_bits() };
            digest = xorshift(digest ^ u64::from(bits));
        }
        if turn % 10 == 0 {
            text += &format!("{digest:016x}\n");
        }
    }
    text
}

fn lengths_around(n: u32) -> String {
    let three = [n.wrapping_sub(1), n, n.wrapping_add(1)];
    three.map(|n| single(n as f32)).concat()
}

/// The lengths of k + 25 digits: the first, two ties above it, and the last tie below the next.
fn lengths_at(k: u32) -> String {
    let (start, half) = (1u32 << (24 + k), 1u32 << k);
    let last = (start << 1).wrapping_sub(half);
    let four = [start, start + half, start + 3 * half, last];
    four.map(lengths_around).concat()
}

fn next_ups(exponent: u32) -> String {
    let start = exponent << 23;
    let three = [start, start + 1, start + 0x7f_ffff];
    let next = |bits| single(f32::from_bits(oracle::next_up(bits)));
    three.map(next).concat()
}

fn below_kinds(bits: u64) -> String {
    let x = f64::from_bits(bits);
    let below = |kind| x.total_cmp(&f64::from_bits(kind)).is_lt();
    let digits = KINDS.map(|kind| if below(kind) { "1" } else { "0" });
    digits.concat() + "\n"
}

/// Scores from 2^-31 to 2, added up; each sum, and what it narrows to.
fn sums() -> String {
    let mut sum = 0.0;
    let mut text = String::new();
    for x in numbers(2).take(100) {
        let score = f32::from_bits(0x3000_0000 + (x % 0x1000_0000) as u32);
        sum += f64::from(score);
        text += &(double(sum) + &single(sum as f32));
    }
    text
}
