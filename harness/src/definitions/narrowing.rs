//! The rows of request 2026-04, binary64 patterns narrowed: by the definition in the standard's steps
//! and by the one in one piece. What both must give is Rust's `as f32`. Values are compared and not
//! patterns, since `to_bits` gives 2^128 that of the infinity.
use super::entries::of_lists;
use super::{Entry, Row};
use crate::random::Random;

const SIGN: u64 = 1 << 63;

/// The least value beyond all finite ones of binary32, 2^128, and its least normal one, 2^-126.
const BEYOND: f64 = 2.0 * (1u128 << 127) as f64;
const NORMAL: f64 = f32::MIN_POSITIVE as f64;

/// Where narrowing takes one step or another: 0, 2^-1022, 2^-150, 2^-149, 1.5 × 2^-149, 2.5 × 2^-149,
/// the last tie below 2^-126, 2^-126, the first tie above it, 2^-125, the second tie above it, two ties
/// above 1, the largest f32, 2^128 − 2^103, 2^128, the largest f64.
const BORDERS: [u64; 17] = [
    0x0000_0000_0000_0000,
    0x0010_0000_0000_0000,
    0x3690_0000_0000_0000,
    0x36a0_0000_0000_0000,
    0x36a8_0000_0000_0000,
    0x36b4_0000_0000_0000,
    0x380f_ffff_e000_0000,
    0x3810_0000_0000_0000,
    0x3810_0000_1000_0000,
    0x3820_0000_0000_0000,
    0x3820_0000_3000_0000,
    0x3ff0_0000_1000_0000,
    0x3ff0_0000_3000_0000,
    0x47ef_ffff_e000_0000,
    0x47ef_ffff_f000_0000,
    0x47f0_0000_0000_0000,
    0x7fef_ffff_ffff_ffff,
];

/// What is not finite and not beside a border: a NaN without a sign, the infinity below 0.
const OTHERS: [u64; 2] = [0x7ff8_0000_0000_0000, 0xfff0_0000_0000_0000];

/// The step that decides: the last one that gives another value than it was given.
#[derive(Clone, Copy, Debug, PartialEq, Eq, PartialOrd, Ord)]
pub enum Step {
    /// none: binary32 has the value, an infinity or NaN
    Kept,
    /// 1, as if the exponent had no limits
    Rounded,
    /// 2
    Overflow,
    /// 3: rounding as in step 1 would be wrong
    Subnormal,
}

/// The patterns around the borders, and a generated one for every ten rows of other entries.
pub fn rows(number: usize) -> Vec<Row> {
    let mut random = Random::new(4);
    let more = (0..number / 10).map(|_| generated(&mut random));
    let borders = BORDERS.into_iter().flat_map(around);
    let patterns = borders.chain(OTHERS).chain(more);
    patterns.map(narrow).collect()
}

/// A pattern between its neighbours, and with the sign. Those of 0 are a NaN and 2^-1074.
fn around(bits: u64) -> [u64; 4] {
    let [before, after] = [bits.wrapping_sub(1), bits + 1];
    [before, bits, after, bits | SIGN]
}

/// A pattern with any exponent, or with one from 126 to 129 or from −152 to −124: three in four of
/// these are a tie, or beside one.
fn generated(random: &mut Random) -> u64 {
    let bits = random.word();
    let exponent = match random.below(8) {
        0..2 => return bits,
        2..4 => random.within(1149, 1152),
        _ => random.within(871, 899),
    };
    let near = bits & !(0x7ff << 52) | u64::from(exponent) << 52;
    match random.below(4) {
        0 => near,
        1 => tie(near, exponent) - 1,
        2 => tie(near, exponent),
        _ => tie(near, exponent) + 1,
    }
}

/// Halfway from the binary32 value of a pattern's first digits to the next: 29 digits are not among
/// them, and one more for each exponent below −126. Below 2^-149 this is no tie.
fn tie(bits: u64, exponent: u32) -> u64 {
    let beyond = 29 + 897_u32.saturating_sub(exponent);
    let unit = 1 << beyond.min(52);
    bits / unit * unit + unit / 2
}

/// A finite pattern's value after step 1: 24 digits, at a tie the even ones, whatever the exponent.
/// Below 2^-1022 there are fewer than 53 to round. A carry is one more in the exponent.
fn rounded(bits: u64) -> f64 {
    let digits = (64 - (bits & !SIGN).leading_zeros()).min(53);
    let unit = 1 << digits.saturating_sub(24);
    let (kept, dropped) = (bits / unit, bits % unit);
    let up = 2 * dropped + kept % 2 > unit;
    f64::from_bits((kept + u64::from(up)) * unit)
}

/// By the request's words: overflow shows in the rounded value, the subnormal case in the unrounded.
fn step(bits: u64) -> Step {
    let x = f64::from_bits(bits);
    if !x.is_finite() {
        return Step::Kept;
    }
    let (rounded, narrowed) = (rounded(bits), f64::from(x as f32));
    if rounded.abs() >= BEYOND {
        Step::Overflow
    } else if x.abs() < NORMAL && narrowed != rounded {
        Step::Subnormal
    } else if rounded != x {
        Step::Rounded
    } else {
        Step::Kept
    }
}

fn narrow(bits: u64) -> Row {
    let narrowed = f64::from_bits(bits) as f32;
    let expected = match narrowed.is_nan() {
        true => "nan".into(),
        false => format!("of_bits binary32 {}", narrowed.to_bits()),
    };
    let value = format!("(of_bits binary64 {bits})");
    let names = ["narrow_in_steps", "narrow"];
    let equations = names.map(|name| (format!("{name} {value}"), expected.clone()));
    of_lists(Entry::Narrow(step(bits)), 0, equations.to_vec())
}
