//! What Search and Page answer is the unchanged Rust's, for small trees in which one slip shows and for a
//! sample of generated cases; where a range has a NaN end, with its ends crossed. Both the cases' files
//! and the answers are made here.
use super::collector::line;
use super::{place, trees};
use crate::answer::{NO_MORE_DOCS, Paged};
use crate::case::Case;
use crate::catalogue::Catalogue;
use crate::failed::crossed;
use crate::generate;
use crate::oracle::Oracle;
use crate::query::match_all;
use crate::refusal::refusal;

/// Words of a case in the file: N, k, t, a page's target and length, nine lists by first word +
/// 65,536 × length.
const HEAD: usize = 14;

/// What the program has room for: a file's words, live words, and files. A case that needs more than
/// its work buffers would be refused there.
const ROOM: usize = 16_384;
const LIVE: usize = 16;
const FILES: usize = 4;

/// The generated indexes, the queries on each, and the most words of an index and of a query.
const INDEXES: usize = 38;
const QUERIES: usize = 8;
const INDEX_WORDS: usize = 500;
const QUERY_WORDS: usize = 200;

/// A case, and where a page of it begins and how long it is.
#[derive(Clone)]
struct Asked {
    case: Case,
    target: u32,
    length: usize,
}

fn index_words(case: &Case) -> usize {
    case.leaves.len() + case.postings.len() + case.positions.len() + case.values.len()
}

fn generated() -> Vec<Case> {
    let small = |case: &Case| case.query.len() <= QUERY_WORDS;
    let indexes = (0..)
        .map(|seed| generate::recorded(seed, 3 * QUERIES))
        .filter(|cases| index_words(&cases[0]) <= INDEX_WORDS);
    indexes
        .take(INDEXES)
        .flat_map(|cases| cases.into_iter().filter(small).take(QUERIES))
        .collect()
}

/// The whole list of a case.
fn whole(case: Case) -> Asked {
    Asked {
        case,
        target: 0,
        length: 100,
    }
}

/// Three pages at most from a target on, each a place longer than the one before.
fn pages(case: Case, first: u32, length: usize) -> Vec<Asked> {
    let oracle = Oracle::new(&crossed(&case));
    let mut pages = Vec::new();
    let mut target = first;
    for length in length..length + 3 {
        if target == NO_MORE_DOCS {
            break;
        }
        let case = case.clone();
        pages.push(Asked {
            case,
            target,
            length,
        });
        target = oracle.page(target, length).next;
    }
    pages
}

fn asked() -> Vec<Asked> {
    let in_pages = |(i, case): (usize, Case)| match i % 3 {
        0 => vec![whole(case)],
        _ => {
            let target = case.n * (i as u32 % 7) / 7;
            pages(case, target, i % 4)
        }
    };
    let small = trees::cases().into_iter().map(whole);
    let generated = generated().into_iter().enumerate().flat_map(in_pages);
    small.chain(called()).chain(generated).collect()
}

/// Every document of three: k and targets at their limits.
fn called() -> Vec<Asked> {
    let calls = [(1, 0, 2), (1024, 1, 0), (0, 3, 1), (1025, 4, 2)];
    let asked = |(k, target, length)| Asked {
        case: Catalogue::new(3).case(k, 1, &match_all()),
        target,
        length,
    };
    calls.map(asked).to_vec()
}

/// The cases that are not refused.
pub fn cases() -> Vec<Case> {
    let cases = asked().into_iter().map(|asked| asked.case);
    cases.filter(|case| refusal(case) == 0).collect()
}

pub fn text() -> String {
    asked().iter().map(answers).collect()
}

fn refused(number: u32) -> String {
    format!("refused {number}\n")
}

/// Search's line, and Page's.
fn answers(asked: &Asked) -> String {
    let oracle = Oracle::new(&crossed(&asked.case));
    let searched = match refusal(&asked.case) {
        0 => line(&oracle.search()),
        number => {
            assert_eq!(number, 11);
            refused(number)
        }
    };
    let page = match asked.target > asked.case.n {
        true => refused(13),
        false => paged(&oracle.page(asked.target, asked.length)),
    };
    searched + &page
}

fn paged(page: &Paged) -> String {
    let hits = page.hits.iter();
    let hits: String = hits
        .map(|hit| format!("{} {:08x} ", hit.document, hit.bits))
        .collect();
    format!("page {hits}next {}\n", page.next)
}

/// Four bytes to a word, or the halves of 64-bit words.
fn packed(bytes: &[u8]) -> Vec<u32> {
    let chunks = bytes.chunks(4);
    let word = |chunk: &[u8]| {
        let mut four = [0; 4];
        four[..chunk.len()].copy_from_slice(chunk);
        u32::from_le_bytes(four)
    };
    chunks.map(word).collect()
}

/// The lists with their lengths: norms in bytes, the others in words.
fn lists(case: &Case) -> [(Vec<u32>, usize); 9] {
    let live: Vec<u8> = case.live.iter().flat_map(|w| w.to_le_bytes()).collect();
    let plain = |list: &Vec<u32>| (list.clone(), list.len());
    [
        plain(&case.fields),
        plain(&case.leaves),
        plain(&case.postings),
        plain(&case.positions),
        (packed(&case.norms), case.norms.len()),
        (packed(&live), 2 * case.live.len()),
        plain(&case.columns),
        plain(&case.values),
        plain(&case.query),
    ]
}

/// A file: of each case its head, and the words of all lists, which stand after the heads.
#[derive(Clone, Default)]
struct File {
    heads: Vec<[u32; HEAD]>,
    pool: Vec<u32>,
}

impl File {
    fn words(&self) -> usize {
        1 + HEAD * self.heads.len() + self.pool.len()
    }

    /// Places are counted from the first list on until the file is written.
    fn add(&mut self, asked: &Asked) {
        let case = &asked.case;
        assert!(case.live.len() <= LIVE);
        let mut head = vec![case.n, case.k, case.t, asked.target, asked.length as u32];
        for (list, length) in lists(case) {
            head.push((place(&mut self.pool, &list) + 65_536 * length) as u32);
        }
        self.heads.push(head.try_into().unwrap());
    }

    /// The number of cases, their heads, then the words of all lists.
    fn bytes(&self) -> Vec<u8> {
        let start = (1 + HEAD * self.heads.len()) as u32;
        let mut words = vec![self.heads.len() as u32];
        for head in &self.heads {
            words.extend(&head[..5]);
            words.extend(head[5..].iter().map(|place| start + place));
        }
        words.extend(&self.pool);
        words.iter().flat_map(|word| word.to_le_bytes()).collect()
    }
}

/// The cases in turn, as many in each file as it has room for.
pub fn data() -> Vec<Vec<u8>> {
    let mut files = vec![File::default()];
    for asked in asked() {
        let last = files.last_mut().unwrap();
        let before = last.clone();
        last.add(&asked);
        if last.words() > ROOM {
            *last = before;
            let mut next = File::default();
            next.add(&asked);
            files.push(next);
        }
    }
    assert_eq!(files.len(), FILES);
    files.iter().map(File::bytes).collect()
}
