//! Hits, count and mark are those of the unchanged Rust's `TopScoreDocCollector`; codes are those of
//! its own `encode`, and the way back is its own too.
use super::numbers;
use crate::answer::{Hit, Searched};
use crate::oracle::{self, private};

/// In rising order, from 0 to plus infinity.
const SCORES: [u32; 8] = [
    0x0000_0000,
    0x0000_0001,
    0x3f00_0000,
    0x3f80_0000,
    0x3f80_0001,
    0x4000_0000,
    0x7f7f_ffff,
    0x7f80_0000,
];

/// Zero, subnormal, normal and infinite, without their sign.
const PATTERNS: [u32; 16] = [
    0x0000_0000,
    0x0000_0001,
    0x0000_0002,
    0x0000_ffff,
    0x0055_5555,
    0x007f_ffff,
    0x0080_0000,
    0x0080_0001,
    0x2aaa_aaaa,
    0x3eff_ffff,
    0x3f80_0000,
    0x3f80_0001,
    0x5555_5555,
    0x7f7f_fffe,
    0x7f7f_ffff,
    0x7f80_0000,
];
const DOCUMENTS: [u32; 4] = [0, 1, 2_147_483_646, 2_147_483_647];

const SIGN: u32 = 1 << 31;

/// Added for each seed.
const STEP: u64 = 0x9e37_79b9_7f4a_7c15;

pub fn text() -> String {
    let mut text = asked(0, 0, 156) + &asked(0, 1, 156);
    text += &(asked(0, 2, 312) + &asked(0, 3, 312));
    text += &asked(2_147_483_610, 3, 78);
    text.extend((0..7).map(|order| asked_long(0, order)));
    text += &asked_long(2_147_483_190, 3);
    text + &codes_of_patterns() + &codes_of_any()
}

/// Lists of 0 to 12 documents, k from 1 to 6, and thresholds from 0 to 13.
fn asked(base: u32, order: u32, times: usize) -> String {
    let mut text = String::new();
    for i in 0..times {
        let seed = STEP.wrapping_mul(i as u64 + 1).wrapping_add(1);
        let t = (seed % 14) as u32;
        text += &picked(base, order, i % 13, 1 + i / 13 % 6, t, seed);
    }
    text
}

/// Lists of up to 150 documents, k from 7 to 40, and thresholds from 0 to 159.
fn asked_long(base: u32, order: u32) -> String {
    let mut text = String::new();
    for i in 0..6 {
        let seed = STEP.wrapping_mul(i as u64 + 1).wrapping_add(2);
        let n = match i % 2 {
            0 => 150,
            _ => 12 + (seed >> 32) as usize % 138,
        };
        let t = (seed % 160) as u32;
        text += &picked(base, order, n, 7 + 33 * i / 5, t, seed);
    }
    text
}

/// The first n documents and scores from a seed.
fn picked(base: u32, order: u32, n: usize, k: usize, t: u32, seed: u64) -> String {
    let documents = documents(base, seed);
    let scores = scores(order, seed ^ 0x5555_5555_5555_5555);
    line(&oracle::pick(&documents[..n], &scores[..n], k as u32, t))
}

/// The count, its mark, and the codes of the best hits.
pub fn line(picked: &Searched) -> String {
    let mark = if picked.mark { "+" } else { "=" };
    let code = |hit: &Hit| private::code(hit.document, hit.bits);
    let codes = picked.hits.iter().map(code);
    let codes: String = codes.map(|code| format!("{code:016x} ")).collect();
    format!("{}{mark} {codes}\n", picked.count)
}

/// 150 documents, each above the one before by 1 to 3.
fn documents(base: u32, seed: u64) -> Vec<u32> {
    let mut document = base;
    let next = |x: u64| {
        let this = document;
        document += 1 + (x % 3) as u32;
        this
    };
    numbers(seed).take(150).map(next).collect()
}

/// Rising or falling twelve at a time, one of two, one of eight, all rising, all falling, or any.
fn scores(order: u32, seed: u64) -> Vec<u32> {
    let score = |(i, x): (usize, u64)| match order {
        0 => SCORES[i * 2 / 3 % 8],
        1 => SCORES[7 - i * 2 / 3 % 8],
        2 => SCORES[3 + x as usize % 2],
        3 => SCORES[x as usize % 8],
        4 => 0x3f80_0000 + i as u32,
        5 => 0x3f80_0000 + 150 - i as u32,
        _ => (x % 0x7f80_0001) as u32,
    };
    numbers(seed).take(150).enumerate().map(score).collect()
}

/// Each pattern with both signs: the score alone, then with each document.
fn codes_of_patterns() -> String {
    let mut text = String::new();
    for bits in PATTERNS.into_iter().flat_map(|bits| [bits, bits ^ SIGN]) {
        text += &sortable(bits);
        text.extend(DOCUMENTS.map(|document| coded(bits, document)));
    }
    text
}

/// Patterns and documents from a seed.
fn codes_of_any() -> String {
    let any = |x: u64| match f32::from_bits(x as u32).is_nan() {
        true => "nan\n".into(),
        false => sortable(x as u32) + &coded(x as u32, (x >> 33) as u32),
    };
    numbers(3).take(128).map(any).collect()
}

/// A score's sortable int, and the score back from it.
fn sortable(bits: u32) -> String {
    let int = private::sortable_int(bits);
    format!("{int} {:08x}\n", private::sortable_bits(int))
}

/// The code of a document and its score, as its upper word, which has the sign, and its lower word;
/// and both back from it.
fn coded(bits: u32, document: u32) -> String {
    let code = private::code(document, bits);
    let [document, bits] = [private::code_document(code), private::code_score(code)];
    let [upper, lower] = [code >> 32, code & 0xffff_ffff];
    format!("{upper} {lower} {document} {bits:08x}\n")
}
