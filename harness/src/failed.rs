//! Failed readings, written from request 2026-03: the tester stores NaN where a measurement failed.
//! No range lists such a value, and a range with a NaN end lists nothing.
pub mod beside;
pub mod example;
#[cfg(oracle)]
pub mod wrong;

use crate::case::Case;
use crate::query::{RANGE, RECORD, range};
use std::cmp::Ordering;

/// The six values of a range's record.
pub type Range = [u32; 6];

/// Whether the bits of a value or of an end are a NaN: in an i64 column, kind 0, none are.
pub fn failed(kind: u32, bits: u64) -> bool {
    kind != 0 && f64::from_bits(bits).is_nan()
}

pub fn joined(low: u32, high: u32) -> u64 {
    u64::from(low) | u64::from(high) << 32
}

/// The lower end and the upper: 0 unbounded, 1 included or 2 excluded, and its bits.
pub fn ends([_, kinds, a, b, c, d]: Range) -> [(u32, u64); 2] {
    [(kinds % 3, joined(a, b)), (kinds / 3, joined(c, d))]
}

/// Whether an end that is given is NaN; an unbounded one is not looked at.
pub fn failed_end(kind: u32, range: Range) -> bool {
    let mut ends = ends(range).into_iter();
    ends.any(|(end, bits)| end != 0 && failed(kind, bits))
}

/// Document 01's order: i64 values as numbers, f64 values in totalOrder.
pub fn ordered(kind: u32, one: u64, other: u64) -> Ordering {
    match kind {
        0 => (one as i64).cmp(&(other as i64)),
        _ => f64::from_bits(one).total_cmp(&f64::from_bits(other)),
    }
}

/// Whether a value lies between the ends in document 01's order, NaN ordered like all else.
pub fn between(kind: u32, range: Range, value: u64) -> bool {
    let [lower, upper] = ends(range).map(|(end, bits)| (end, ordered(kind, value, bits)));
    let above = match lower {
        (0, _) => true,
        (1, order) => order.is_ge(),
        (_, order) => order.is_gt(),
    };
    let below = match upper {
        (0, _) => true,
        (1, order) => order.is_le(),
        (_, order) => order.is_lt(),
    };
    above && below
}

/// Whether a range lists a value that is present.
pub fn holds(kind: u32, range: Range, value: u64) -> bool {
    !failed(kind, value) && !failed_end(kind, range) && between(kind, range, value)
}

/// The present values of a column, with their documents.
pub fn present(case: &Case, column: u32) -> impl Iterator<Item = (u32, u64)> {
    let n = case.n as usize;
    let records = case.values[3 * n * column as usize..][..3 * n].chunks(3);
    let present = (0..).zip(records).filter(|(_, value)| value[0] == 1);
    present.map(|(document, value)| (document, joined(value[1], value[2])))
}

/// The documents that a range lists.
pub fn listed(case: &Case, range: Range) -> Vec<u32> {
    let kind = case.columns[range[0] as usize];
    let held = present(case, range[0]).filter(|(_, value)| holds(kind, range, *value));
    held.map(|(document, _)| document).collect()
}

/// The values of a record where it is a range with a NaN end.
fn failed_range(case: &Case, record: &[u32]) -> Option<Range> {
    let values: Range = record[3..].try_into().ok()?;
    let kind = case.columns.get(values[0] as usize)?;
    (record[0] == RANGE && failed_end(*kind, values)).then_some(values)
}

/// The ranges of an order that have a NaN end.
pub fn failed_ranges(case: &Case) -> Vec<Range> {
    let records = case.query.chunks_exact(RECORD);
    records.filter_map(|r| failed_range(case, r)).collect()
}

pub fn has_failed_end(case: &Case) -> bool {
    !failed_ranges(case).is_empty()
}

/// Whether a range of an accepted order asks an f64 column that has a NaN value.
pub fn asks_failed_value(case: &Case) -> bool {
    let has = |column: u32| {
        let kind = case.columns[column as usize];
        present(case, column).any(|(_, value)| failed(kind, value))
    };
    let mut records = case.query.chunks_exact(RECORD);
    records.any(|record| record[0] == RANGE && has(record[3]))
}

/// The same order without NaN ends: a range that has one goes from 1 to −1 instead, both included,
/// and so lists nothing by document 01 alone.
pub fn crossed(case: &Case) -> Case {
    let mut changed = case.clone();
    for record in changed.query.chunks_exact_mut(RECORD) {
        if let Some([column, ..]) = failed_range(case, record) {
            let nothing = range(column, 4, 1f64.to_bits(), (-1f64).to_bits());
            record[3..].copy_from_slice(&nothing.values);
        }
    }
    changed
}
