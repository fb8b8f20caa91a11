//! The lists are the unchanged Rust's: its doc_values.rs, asked for a column's ranges. With a NaN end
//! they are the judge's of request 2026-03.
use crate::case::Case;
use crate::failed::{failed_end, listed};
use crate::oracle;

/// Values as document 01 lends them: present or not, the low half and the high half.
const VALUES: [[u32; 3]; 18] = [
    [1, 0x0000_0000, 0x0000_0000],
    [1, 0x0000_0000, 0x8000_0000],
    [1, 0x0000_0001, 0x0000_0000],
    [1, 0x0000_0001, 0x8000_0000],
    [0, 0x0000_0000, 0x0000_0000],
    [1, 0xffff_ffff, 0x7fff_ffff],
    [1, 0xffff_ffff, 0xffff_ffff],
    [1, 0x0000_0000, 0x3ff0_0000],
    [1, 0x0000_0000, 0xbff0_0000],
    [1, 0x0000_0001, 0x3ff0_0000],
    [0, 0x0000_0000, 0x3ff0_0000],
    [1, 0x0000_0000, 0x3ff0_0000],
    [1, 0x0000_0000, 0x7ff0_0000],
    [1, 0x0000_0000, 0xfff0_0000],
    [1, 0x0000_0000, 0x7ff8_0000],
    [1, 0x0000_0000, 0xfff8_0000],
    [1, 0xffff_ffff, 0x7fef_ffff],
    [1, 0xffff_ffff, 0xffef_ffff],
];

/// The values as one column of eighteen documents, of either type, and as three columns of six.
pub fn text() -> String {
    let mut text = column(18, &[0], 0) + &column(18, &[1], 0);
    for three in 0..3 {
        text += &column(6, &[0, 1, 0], three);
    }
    text
}

/// A column's lists between every two values' patterns.
fn column(n: u32, columns: &[u32], column: u32) -> String {
    let case = Case {
        n,
        columns: columns.to_vec(),
        values: VALUES.concat(),
        ..Case::default()
    };
    let mut text = String::new();
    for lower in 0..VALUES.len() {
        for upper in 0..VALUES.len() {
            text += &lists(&case, column, lower, upper);
        }
    }
    text
}

/// All nine kinds of ends for equal ones, and else those with both ends bounded.
fn lists(case: &Case, column: u32, lower: usize, upper: usize) -> String {
    let mut text = String::new();
    for kinds in 0..9 {
        let bounded = kinds % 3 != 0 && kinds / 3 != 0;
        if lower == upper || bounded {
            text += &list(case, column, kinds, VALUES[lower], VALUES[upper]);
        }
    }
    text
}

/// An unbounded end is lent as 0.
fn list(case: &Case, column: u32, kinds: u32, lower: [u32; 3], upper: [u32; 3]) -> String {
    let end = |kind, [_, low, high]: [u32; 3]| match kind {
        0 => [0, 0],
        _ => [low, high],
    };
    let [a, b] = end(kinds % 3, lower);
    let [c, d] = end(kinds / 3, upper);
    let range = [column, kinds, a, b, c, d];
    let documents = match failed_end(case.columns[column as usize], range) {
        true => listed(case, range),
        false => oracle::range(case, range),
    };
    let text: String = documents.iter().map(|d| format!("{d} ")).collect();
    text + "\n"
}
