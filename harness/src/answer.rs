//! What Search and Page answer.
use std::fmt::Write;

/// The end of every list of documents.
pub const NO_MORE_DOCS: u32 = 2_147_483_647;

/// A document and its score's bits.
#[derive(Clone, Copy, Debug, PartialEq, Eq)]
pub struct Hit {
    pub document: u32,
    pub bits: u32,
}

impl Hit {
    /// Hits are ordered by this code, the largest first. It is right for scores from 0 up.
    pub fn code(self) -> i64 {
        (i64::from(self.bits) << 32) | i64::from(NO_MORE_DOCS - self.document)
    }

    /// The hit that has this code.
    pub fn of(code: i64) -> Hit {
        let document = NO_MORE_DOCS.checked_sub(code as u32);
        Hit {
            document: document.expect("a document"),
            bits: (code >> 32) as u32,
        }
    }
}

/// The best k hits, how many documents matched, and the "at least" mark.
#[derive(Clone, Debug, PartialEq, Eq)]
pub struct Searched {
    pub hits: Vec<Hit>,
    pub count: u64,
    pub mark: bool,
}

/// One page of the full list, and the next match after it or `NO_MORE_DOCS`.
#[derive(Clone, Debug, PartialEq, Eq)]
pub struct Paged {
    pub hits: Vec<Hit>,
    pub next: u32,
}

impl Searched {
    /// The lines that the program `hits` prints.
    pub fn text(&self) -> String {
        let plus = if self.mark { "+" } else { "" };
        format!("count {}{plus}\n{}", self.count, lines(&self.hits))
    }
}

/// Each document with its score's bits, on a line of its own.
pub fn lines(hits: &[Hit]) -> String {
    let mut text = String::new();
    for hit in hits {
        writeln!(text, "{} {:08x}", hit.document, hit.bits).unwrap();
    }
    text
}
