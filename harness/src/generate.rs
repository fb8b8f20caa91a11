//! Small valid cases from a seed: none of refusals 1 to 12 holds, and every file fits `hits`. The
//! weights and costs are chosen so that the order of additions shows in the last bit. Readings that
//! failed are frequent; a NaN end only stands in the cases that are made for it.
mod index;
mod order;
mod planted;
pub mod short;
mod shown;
mod sums;

use crate::case::Case;
use crate::random::Random;
use index::Index;
use std::iter::repeat_with;

/// x, y and z: in f64 their sum narrows to 3f800001, but with y added last to 3f800000.
pub const BY_ORDER: [u32; 3] = [X, Y, Z];
pub const X: u32 = 0x3f7f_ffff;
pub const Y: u32 = 0x3400_0000;
pub const Z: u32 = 0x253f_ffff;

/// Which failed readings are made: NaN values of f64 columns, and NaN ends of ranges over them.
#[derive(Clone, Copy, Debug, PartialEq, Eq)]
pub enum Readings {
    /// what was drawn before NaN was shut out: so the recorded cases stay what they were
    Recorded,
    /// values, more in half of the indexes with such a column; the Rust is run beside these
    Values,
    /// the same values, in every index such a column, and in every order a NaN end
    Ends,
}

/// The case of a seed.
pub fn case(seed: u64) -> Case {
    cases(seed, 1).remove(0)
}

/// Some cases of one index, the case of the seed first.
pub fn cases(seed: u64, number: usize) -> Vec<Case> {
    of_index(seed, Readings::Values).take(number).collect()
}

/// Some cases of one index, as they were first recorded: NaN ends are among them.
pub fn recorded(seed: u64, number: usize) -> Vec<Case> {
    of_index(seed, Readings::Recorded).take(number).collect()
}

/// The case of a seed that has a NaN end.
pub fn with_failed_end(seed: u64) -> Case {
    let mut cases = of_index(seed, Readings::Ends);
    cases.next().expect("cases without end")
}

/// Cases of the index of a seed without end.
fn of_index(seed: u64, readings: Readings) -> impl Iterator<Item = Case> {
    let mut random = Random::new(seed);
    let index = index::index(&mut random, readings);
    repeat_with(move || asked(&mut random, &index))
}

/// An index that was made elsewhere, with a query, k and t.
pub fn over(random: &mut Random, case: Case) -> Case {
    asked(random, &index::of(case))
}

/// The index with a query, k and t.
fn asked(random: &mut Random, index: &Index) -> Case {
    let query = order::query(random, index).words();
    let n = index.case.n;
    let k = match random.below(8) {
        0 => 1024,
        1 => n.max(1),
        2 => 1,
        _ => random.within(1, 6),
    };
    let t = match random.below(8) {
        0 => 0,
        1 => u32::MAX,
        _ => random.below(n + 2),
    };
    Case {
        k,
        t,
        query,
        ..index.case.clone()
    }
}

/// Bits of a value that an i64 column (kind 0) or an f64 column may hold.
fn value_bits(random: &mut Random, kind: u32) -> u64 {
    let whole = [17, 18, 19, 0, -1, i64::MIN, i64::MAX].map(|v| v as u64);
    let numbers = [
        17.0,
        17.5,
        18.0,
        0.0,
        -0.0,
        f64::INFINITY,
        f64::NEG_INFINITY,
    ];
    let mut floats = numbers.map(f64::to_bits).to_vec();
    // quiet and signalling NaNs of both signs, the largest of each, the least above 0
    floats.extend([0x7ff8 << 48, 0xfff8 << 48, (0x7ff0 << 48) + 1]);
    floats.extend([(0xfff0 << 48) + 1, u64::MAX >> 1, u64::MAX, 1]);
    match (random.below(8), kind) {
        (0, _) => random.word(),
        (_, 0) => random.pick(&whole),
        _ => random.pick(&floats),
    }
}

/// A NaN of either sign, quiet or signalling, often with the least or the largest digits.
fn nan_bits(random: &mut Random) -> u64 {
    let quiet = 1 << 51;
    let any = random.word() >> 12;
    let digits = random.pick(&[1, quiet, quiet - 1, quiet + 1, 2 * quiet - 1, any.max(1)]);
    random.pick(&[0x7ff0 << 48, 0xfff0 << 48]) | digits
}
