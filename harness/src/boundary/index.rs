//! The loader's boundaries, 1 to 6.
use super::{Cases, NO_AMOUNT, empty};
use crate::case::Case;

const FIELD: [u32; 3] = [0x3f80_0000, 0, 0];
const FIELD_WITH_NORMS: [u32; 3] = [0x3f80_0000, 1, 0];

/// A number whose triple, and one whose fourfold, is small again in 32 bits.
const THIRD: u32 = 0x5555_5556;
const QUARTER: u32 = 0x4000_0000;

pub fn add(cases: &mut Cases) {
    documents(cases);
    fields(cases);
    norms(cases);
    live(cases);
    leaves(cases);
    runs(cases);
    documents_of_postings(cases);
    frequencies(cases);
    positions(cases);
    positions_of_two(cases);
    columns(cases);
    values(cases);
}

fn documents(cases: &mut Cases) {
    for (number, n) in [
        (0, 0),
        (0, 1),
        (0, 1_048_576),
        (1, 1_048_577),
        (1, u32::MAX),
    ] {
        cases.is(number, empty(n));
    }
}

fn fields(cases: &mut Cases) {
    for words in [1, 2] {
        cases.changed(2, |c| c.fields.extend(&FIELD[..words]));
        cases.changed(2, |c| c.fields.truncate(6 - words));
    }
    cases.changed(0, |c| c.fields.extend(FIELD.repeat(14)));
    cases.changed(2, |c| c.fields.extend(FIELD.repeat(15)));
    for field in [0, 3] {
        for (number, average) in [
            (0, 0x3f80_0000),
            (2, 0x3f7f_ffff),
            (0, 0x4b80_0000),
            (2, 0x4b80_0001),
            (2, 0),
            (2, 1),
        ] {
            cases.changed(number, |c| c.fields[field] = average);
        }
        for average in NO_AMOUNT {
            cases.changed(2, |c| c.fields[field] = average);
        }
        for flag in [field + 1, field + 2] {
            cases.changed(2, |c| c.fields[flag] = 2);
            cases.changed(2, |c| c.fields[flag] = u32::MAX);
        }
    }
    // the flags that are allowed mean that something else is asked for
    cases.changed(3, |c| c.fields[1] = 0);
    cases.changed(0, |c| (c.fields[1], c.norms) = (0, vec![]));
    cases.changed(5, |c| c.fields[2] = 0);
    cases.changed(3, |c| c.fields[4] = 1);
    cases.changed(0, |c| (c.fields[4], c.norms) = (1, vec![0; 6]));
    cases.changed(5, |c| c.fields[5] = 1);
    cases.changed(0, |c| (c.fields[5], c.postings[10]) = (1, 2));
}

fn norms(cases: &mut Cases) {
    for (number, length) in [(3, 0), (3, 2), (0, 3), (3, 4), (3, 6)] {
        cases.changed(number, |c| c.norms = vec![0; length]);
    }
    for (n, fields) in [(0, 16), (1, 16), (4097, 16), (65_536, 1)] {
        let right = n as usize * fields;
        for length in [right.saturating_sub(1), right, right + 1] {
            let number = if length == right { 0 } else { 3 };
            let norms = vec![0; length];
            let fields = FIELD_WITH_NORMS.repeat(fields);
            let case = Case {
                fields,
                norms,
                ..empty(n)
            };
            cases.is(number, case);
        }
    }
    let fields = FIELD_WITH_NORMS.repeat(16);
    cases.is(
        3,
        Case {
            fields,
            ..empty(1_048_576)
        },
    );
}

fn live(cases: &mut Cases) {
    for (n, right) in [
        (0, 0),
        (1, 1),
        (63, 1),
        (64, 1),
        (65, 2),
        (128, 2),
        (129, 3),
        (1_048_575, 16_384),
        (1_048_576, 16_384),
    ] {
        for length in [0, right.max(1) - 1, right, right + 1] {
            let number = if length == 0 || length == right { 0 } else { 3 };
            let live = vec![u64::MAX; length];
            cases.is(number, Case { live, ..empty(n) });
        }
    }
}

fn leaves(cases: &mut Cases) {
    for words in [1, 2, 3] {
        cases.changed(4, |c| c.leaves.extend(&[0; 4][..words]));
        cases.changed(4, |c| c.leaves.truncate(12 - words));
    }
    cases.changed(0, |c| c.leaves.extend([0; 4].repeat(509)));
    cases.changed(4, |c| c.leaves.extend([0; 4].repeat(510)));
    for field in [2, THIRD, u32::MAX] {
        cases.changed(4, |c| c.leaves[0] = field);
    }
    cases.is(
        4,
        Case {
            leaves: vec![0; 4],
            ..empty(1)
        },
    );
    for leaf in [0, 2] {
        let idf = 4 * leaf + 3;
        for (number, bits) in [(0, 0), (0, 1), (0, 0x4280_0000), (4, 0x4280_0001)] {
            cases.changed(number, |c| c.leaves[idf] = bits);
        }
        for bits in NO_AMOUNT {
            cases.changed(4, |c| c.leaves[idf] = bits);
        }
    }
}

/// First posting + number against the count of postings, which is 4.
fn runs(cases: &mut Cases) {
    for (number, first, length) in [
        (0, 4, 0),
        (4, 5, 0),
        (0, 0, 2),
        (0, 3, 0),
        (4, 3, 2),
        (4, 4, 1),
        (4, 0, 5),
        (4, 1, u32::MAX),
        (4, u32::MAX, 1),
        (4, u32::MAX, u32::MAX),
        (4, 0x8000_0000, 0x8000_0000),
        (4, 4, u32::MAX - 3),
        (4, THIRD, 0),
        (4, 0, THIRD),
        (4, QUARTER, 0),
    ] {
        cases.changed(number, |c| c.leaves.extend([0, first, length, 0]));
    }
    let whole = |length| Case {
        fields: FIELD.to_vec(),
        leaves: vec![0, 0, length, 0],
        ..empty(1)
    };
    cases.is(0, whole(0));
    cases.is(4, whole(1));
    // posting words that are not whole: a run may stand before them, and is refused all the same
    for words in [1, 2] {
        cases.changed(5, |c| c.postings.extend(&[0; 3][..words]));
        cases.changed(4, |c| c.postings.truncate(12 - words));
    }
    cases.changed(0, |c| c.postings.extend([9, 0, 9]));
    // one run under two leaves, and under a leaf of a field without positions
    cases.changed(0, |c| c.leaves.extend([0, 0, 2, 0]));
    cases.changed(5, |c| c.leaves.extend([1, 0, 2, 0]));
    cases.changed(0, |c| c.leaves.extend([1, 0, 1, 0]));
    cases.changed(5, |c| c.leaves.extend([0, 1, 2, 0]));
}

/// The documents of the first leaf's two postings; N is 3.
fn documents_of_postings(cases: &mut Cases) {
    for (number, first, second) in [
        (0, 0, 1),
        (0, 1, 2),
        (5, 0, 3),
        (5, 0, 0),
        (5, 2, 2),
        (5, 2, 0),
        (5, 2, 1),
        (5, 3, 4),
        (5, 0, 2_147_483_647),
        (5, 0, 0x8000_0000),
        (5, 0, u32::MAX),
        (5, u32::MAX, 0),
        (5, u32::MAX, 2),
        (5, 0x8000_0000, 2),
    ] {
        cases.changed(number, |c| (c.postings[0], c.postings[3]) = (first, second));
    }
    for (number, n, document) in [
        (5, 0, 0),
        (0, 1, 0),
        (5, 1, 1),
        (0, 1_048_576, 1_048_575),
        (5, 1_048_576, 1_048_576),
    ] {
        let case = Case {
            fields: FIELD.to_vec(),
            leaves: vec![0, 0, 1, 0],
            postings: vec![document, 1, 0],
            ..empty(n)
        };
        cases.is(number, case);
    }
}

/// In a field without positions, and then in one that has them.
fn frequencies(cases: &mut Cases) {
    for (number, frequency) in [
        (5, 0),
        (0, 1),
        (0, 16_777_216),
        (5, 16_777_217),
        (5, 0x8000_0000),
        (5, u32::MAX),
    ] {
        cases.changed(number, |c| c.postings[10] = frequency);
    }
    for index in [1, 0x8000_0000, u32::MAX] {
        cases.changed(5, |c| c.postings[11] = index);
    }
    for (number, frequency) in [(5, 0), (0, 1), (5, 2), (5, 16_777_216), (5, u32::MAX)] {
        cases.changed(number, |c| c.postings[7] = frequency);
    }
}

/// The positions are 0 0, 2147483647 and 5.
fn positions(cases: &mut Cases) {
    for (number, at, position) in [
        (0, 1, 1),
        (5, 0, 1),
        (0, 1, 2_147_483_647),
        (5, 1, 2_147_483_648),
        (5, 2, 2_147_483_648),
        (5, 3, u32::MAX),
        (0, 2, 0),
    ] {
        cases.changed(number, |c| c.positions[at] = position);
    }
    cases.changed(0, |c| c.positions[..2].fill(2_147_483_647));
    cases.changed(5, |c| c.positions[..2].fill(2_147_483_648));
    // past the slice by one, and what no posting names
    cases.changed(5, |c| c.positions.truncate(3));
    cases.changed(5, |c| c.positions.clear());
    cases.changed(0, |c| c.positions.push(u32::MAX));
    cases.changed(0, |c| (c.postings[7], c.positions[3]) = (1, 0));
    for (number, more) in [(0, 5), (5, 4), (5, 2_147_483_648)] {
        cases.changed(number, |c| {
            c.postings[7] = 2;
            c.positions.push(more);
        });
    }
    // index and frequency of the second leaf's posting
    for (number, index, frequency) in [
        (0, 0, 2),
        (5, 4, 1),
        (5, 3, 2),
        (5, u32::MAX, 1),
        (5, u32::MAX, 2),
        (5, 0xff00_0000, 16_777_216),
        (5, 0xff00_0001, 16_777_216),
        (5, 0x8000_0000, 1),
    ] {
        cases.changed(number, |c| {
            (c.postings[8], c.postings[7]) = (index, frequency)
        });
    }
}

/// Two postings of the first leaf: falls inside one and from one to the next, their positions in
/// turn, apart, the other way round, and shared.
fn positions_of_two(cases: &mut Cases) {
    for (number, first, second, positions) in [
        (0, 0, 2, [1, 2, 0, 5, 5]),
        (5, 0, 2, [2, 1, 3, 4, 5]),
        (5, 0, 2, [1, 2, 5, 0, 5]),
        (5, 0, 2, [2, 1, 1, 0, 5]),
        (0, 0, 2, [7, 7, 3, 3, 0]),
        (0, 0, 3, [1, 2, 0, 3, 4]),
        (5, 0, 3, [1, 2, 0, 4, 3]),
        (5, 0, 3, [2, 1, 0, 3, 4]),
        (0, 2, 0, [8, 9, 1, 2, 5]),
        (5, 2, 0, [9, 8, 1, 2, 5]),
        (5, 2, 0, [8, 9, 2, 1, 5]),
        (0, 0, 1, [1, 2, 3, 0, 5]),
        (5, 0, 1, [1, 2, 1, 0, 5]),
        (5, 0, 4, [1, 2, 3, 4, 5]),
        (5, 4, 2, [1, 2, 3, 4, 5]),
        (5, u32::MAX, 1, [1, 2, 3, 4, 5]),
    ] {
        cases.changed(number, |c| {
            c.postings[..6].copy_from_slice(&[0, 2, first, 2, 2, second]);
            c.positions = positions.to_vec();
        });
    }
}

fn columns(cases: &mut Cases) {
    let of = |n, columns, values| Case {
        columns: vec![1; columns],
        values: vec![0; values],
        ..empty(n)
    };
    for (number, n, columns, values) in [
        (0, 3, 8, 72),
        (6, 3, 9, 81),
        (6, 3, 9, 72),
        (6, 3, 8, 81),
        (0, 0, 8, 0),
        (6, 0, 9, 0),
        (6, 0, 8, 3),
        (6, 3, 0, 3),
        (0, 100, 1, 300),
        (6, 100, 1, 299),
        (6, 100, 1, 301),
        (6, 100, 1, 297),
        (0, 1_048_576, 0, 0),
        (6, 1_048_576, 1, 0),
        (6, 1_048_576, 8, 0),
        (6, 1_048_576, 8, 300),
        (6, 1_048_576, 256, 0),
    ] {
        cases.is(number, of(n, columns, values));
    }
    for (number, kind) in [(0, 0), (0, 1), (6, 2), (6, u32::MAX)] {
        cases.changed(number, |c| c.columns[0] = kind);
    }
    cases.is(
        6,
        Case {
            columns: vec![0, 1, 0, 1, 0, 1, 0, 2],
            ..empty(0)
        },
    );
}

fn values(cases: &mut Cases) {
    for words in [1, 2, 3] {
        cases.changed(6, |c| c.values.extend(&[0; 3][..words]));
        cases.changed(6, |c| c.values.truncate(9 - words));
    }
    for value in 0..3 {
        for (number, present) in [(0, 0), (0, 1), (6, 2), (6, 0x8000_0000), (6, u32::MAX)] {
            cases.changed(number, |c| c.values[3 * value] = present);
        }
        cases.changed(0, |c| c.values[3 * value + 1] = 2);
        cases.changed(0, |c| c.values[3 * value + 2] = u32::MAX);
    }
}
