//! The numbers are `refusal`'s, which is written from document 01's text: of every boundary, and of
//! damaged copies of generated cases and of the sound one; a copy that is refused with 9 or 10 is
//! damaged twice more, so that a lower number holds beside it. Both the cases' file and the numbers are made here.
use super::place;
use crate::boundary;
use crate::case::Case;
use crate::damage::damaged;
use crate::generate;
use crate::random::Random;
use crate::refusal::refusal;

/// Words of a case in the file: N, two lengths, seven lists by first word + 65,536 × length.
const HEAD: usize = 10;

/// What the program has room for: the file's words, norm bytes, live words.
const ROOM: usize = 65_536;
const NORMS: usize = 65_553;
const LIVE: usize = 16_385;

/// Generated cases, and how often each is damaged.
const GENERATED: usize = 5;
const DAMAGED: usize = 20;

/// Words of a generated case: one that is damaged fills the file with its copies.
const LARGEST: usize = 150;

fn words(case: &Case) -> usize {
    case.leaves.len() + case.postings.len() + case.values.len() + case.query.len()
}

fn cases() -> Vec<Case> {
    let mut cases: Vec<_> = boundary::all().into_iter().map(|(_, case)| case).collect();
    let mut random = Random::new(3);
    let small = (0..)
        .flat_map(|seed| generate::recorded(seed, 1))
        .filter(|case| words(case) <= LARGEST);
    for sound in small.take(GENERATED) {
        cases.extend((0..DAMAGED).map(|_| damaged(&mut random, &sound)));
        cases.push(sound);
    }
    let sound = boundary::sound();
    for _ in 0..6 * DAMAGED {
        let copy = damaged(&mut random, &sound);
        if number(&copy) > 8 {
            cases.extend((0..2).map(|_| damaged(&mut random, &copy)));
        }
        cases.push(copy);
    }
    cases
}

/// The lowest of 1 to 10, or 0: the caller's numbers are not looked at.
fn number(case: &Case) -> u32 {
    match refusal(case) {
        11.. => 0,
        number => number,
    }
}

pub fn text() -> String {
    let line = |case| format!("{}\n", number(&case));
    cases().into_iter().map(line).collect()
}

/// The number of cases, their heads, then the words of all lists: a list that stands there already
/// is not written again.
pub fn data() -> Vec<u8> {
    let cases = cases();
    let start = 1 + HEAD * cases.len();
    let mut heads = vec![cases.len() as u32];
    let mut pool: Vec<u32> = Vec::new();
    let mut longest_first: Vec<_> = cases.iter().flat_map(Case::words).collect();
    longest_first.sort_by_key(|list| std::cmp::Reverse(list.len()));
    for list in longest_first {
        place(&mut pool, list);
    }
    for case in &cases {
        assert!(case.norms.len() <= NORMS && case.live.len() <= LIVE);
        heads.extend([case.n, case.norms.len() as u32, case.live.len() as u32]);
        for list in case.words() {
            let first = start + place(&mut pool, list);
            heads.push((first + 65_536 * list.len()) as u32);
        }
    }
    heads.extend(pool);

    assert!(heads.len() <= ROOM, "{} words", heads.len());
    heads.iter().flat_map(|word| word.to_le_bytes()).collect()
}
