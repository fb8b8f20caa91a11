//! What the token writer answers, and what its outputs hold afterwards, is the judge's, which is
//! written from request 2026-02's text. Both the rows' file and the answers are made here.
use super::place;
use crate::tokens::calls::{Call, by_hand, damaged, generated};
use crate::tokens::{ANSWERED, judge};
use std::fmt::Display;

/// Words of a row in the file: N, four lengths, three lists by first word + 65,536 × length.
const HEAD: usize = 8;

/// What the program has room for: the file's words, and an output's elements.
const WORDS: usize = 16_384;
const ROOM: usize = 1024;

/// Generated calls, and damaged ones for which several numbers hold.
const GENERATED: u64 = 60;
const SEVERAL: u32 = 32;

/// What stands in every element of the outputs before a call.
const BEFORE: u8 = 77;

fn rows() -> Vec<Call> {
    let mut rows = by_hand();
    rows.extend((0..GENERATED).map(generated));
    rows.extend(damaged(SEVERAL));
    // the program has no buffer for the two answered numbers
    rows.retain(|row| row.lent.answer >= ANSWERED);
    rows
}

pub fn text() -> String {
    rows().iter().map(lines).collect()
}

/// The number, with the two answered ones where the call is accepted; then each output.
fn lines(row: &Call) -> String {
    let (answer, written) = match judge::write(row.tokens.given(), &row.lent) {
        Err(number) => (format!("{number} \n"), Default::default()),
        Ok(written) => {
            let [postings, positions] = written.answer();
            (format!("0 {postings} {positions}\n"), written)
        }
    };
    let words = [
        (&written.postings, row.lent.postings),
        (&written.positions, row.lent.positions),
        (&written.runs, row.lent.runs),
    ];
    let lists = words.map(|(front, length)| line(front, length, u32::from(BEFORE)));
    answer + &line(&written.norms, row.lent.norms, BEFORE) + &lists.concat()
}

/// What was written, and from its end on what stood there before.
fn line<T: Display + Copy>(front: &[T], length: usize, before: T) -> String {
    let mut all = front.to_vec();
    assert!(all.len() <= length);
    all.resize(length, before);
    let numbers = all.iter().map(|number| format!("{number} "));
    numbers.collect::<String>() + "\n"
}

fn lists(row: &Call) -> [&[u32]; 3] {
    let tokens = &row.tokens;
    [&tokens.fields, &tokens.tokens, &tokens.leaf_fields]
}

/// The number of rows, their heads, then the words of all lists: a list that stands there already
/// is not written again.
pub fn data() -> Vec<u8> {
    let rows = rows();
    let start = 1 + HEAD * rows.len();
    let mut heads = vec![rows.len() as u32];
    let mut pool = Vec::new();
    let mut longest_first: Vec<_> = rows.iter().flat_map(lists).collect();
    longest_first.sort_by_key(|list| std::cmp::Reverse(list.len()));
    for list in longest_first {
        place(&mut pool, list);
    }
    for row in &rows {
        let lent = &row.lent;
        heads.push(row.tokens.n);
        for length in [lent.norms, lent.postings, lent.positions, lent.runs] {
            assert!(length <= ROOM);
            heads.push(length as u32);
        }
        for list in lists(row) {
            let first = start + place(&mut pool, list);
            heads.push((first + 65_536 * list.len()) as u32);
        }
    }
    heads.extend(pool);

    assert!(heads.len() <= WORDS, "{} words", heads.len());
    heads.iter().flat_map(|word| word.to_le_bytes()).collect()
}
