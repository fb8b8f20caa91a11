//! A lot withdrawn between two runs: the calls before its live bit is cleared and those after, held
//! to the rule of request 2026-01, and to the Rust unless the rule shall stand alone.
pub mod named;

use crate::answer::{Hit, NO_MORE_DOCS, Searched};
use crate::border::Entries;
use crate::buffer::{Buffers, enough};
use crate::case::Case;
use crate::expect::{self, Found, told, written};
use crate::failed::has_failed_end;
use crate::fuzz::Against;
use crate::oracle::{Oracle, collect};
use crate::random::Random;
use crate::refusal::calls::Judge;

/// A refusal's number, or the full list.
pub type Listed = Result<Vec<Hit>, u32>;

/// Clears a document's live bit; the right one is `Case::withdraw`.
pub type Clear = fn(&mut Case, u32);

/// A library, what it is held to, and how a live bit is cleared.
#[derive(Clone, Copy)]
pub struct Withdrawal<'a> {
    pub entries: &'a dyn Entries,
    pub against: Against,
    pub clear: Clear,
}

impl Withdrawal<'_> {
    /// Holds the full list and the hits of each k, from 1 to 1,023, to the rule; gives the full
    /// list before, empty where the case is refused.
    pub fn check(&self, case: &Case, document: u32, ks: &[u32], random: &mut Random) -> Vec<Hit> {
        let mut changed = case.clone();
        (self.clear)(&mut changed, document);
        let pair = Pair {
            before: self.run(case),
            after: self.run(&changed),
            document,
        };
        let list = pair.lists(random).unwrap_or_default();
        for k in ks {
            pair.hits(*k, &list, random);
        }
        list
    }

    pub fn run<'a>(&'a self, case: &'a Case) -> Run<'a> {
        let judge = Judge::new(case);
        let accepted = judge.order == 0 && !has_failed_end(case);
        let by_rust = self.against == Against::Rust && accepted;
        Run {
            entries: self.entries,
            case,
            judge,
            rust: by_rust.then(|| Oracle::new(case).list()),
        }
    }
}

/// The calls with one case.
pub struct Run<'a> {
    entries: &'a dyn Entries,
    case: &'a Case,
    judge: Judge,
    /// the Rust's full list, where accepted calls are held to it
    rust: Option<Vec<Hit>>,
}

impl Run<'_> {
    /// What Search gives. The number is the judge's, and what Search does not write stays.
    pub fn search(&self, k: u32, t: u32, random: &mut Random) -> Found {
        let lent = enough(random, &self.judge.needed, k, 0);
        let mut buffers = Buffers::new(random, &lent);
        let number = self.entries.search(buffers.search(self.case, k, t));
        assert_eq!(number, self.judge.search(k, &lent), "the number");
        let found = match number {
            0 => Ok(told(&buffers)),
            _ => Err(number),
        };
        expect::found(&buffers, number, &found);
        if let (Ok(found), Some(list)) = (&found, &self.rust) {
            assert_eq!(*found, collect(list, k, t), "beside the Rust");
        }
        found
    }

    /// The pages of m documents, 1 or more, from 0 to the end, joined.
    pub fn list(&self, m: usize, random: &mut Random) -> Listed {
        let mut list = Vec::new();
        let mut target = 0;
        let lent = enough(random, &self.judge.needed, 0, m);
        let mut buffers = Buffers::new(random, &lent);
        while target != NO_MORE_DOCS {
            // the work buffers are as the page before left them
            buffers.for_page(random, m);
            let number = self.entries.page(buffers.page(self.case, target));
            assert_eq!(number, self.judge.page(target, &lent), "the number");
            if number != 0 {
                expect::given(&buffers, number, &Err(number));
                return Err(number);
            }
            let page = written(&buffers);
            expect::given(&buffers, number, &Ok(page.clone()));
            assert!(page.next > target, "a page that does not go on");
            target = page.next;
            list.extend(page.hits);
        }
        if let Some(right) = &self.rust {
            assert_eq!(list, *right, "beside the Rust");
        }
        Ok(list)
    }

    /// The same list in one page; of what is refused, whatever N it has, one document is asked.
    fn list_at_once(&self, random: &mut Random) -> Listed {
        let m = match self.judge.order {
            0 => self.case.n as usize + 1,
            _ => 1,
        };
        self.list(m, random)
    }
}

/// The runs before and after a document's live bit was cleared.
struct Pair<'a> {
    before: Run<'a>,
    after: Run<'a>,
    document: u32,
}

impl Pair<'_> {
    /// The full list after is the one before without the document, and nothing is refused or
    /// accepted because a bit was cleared; gives the list before.
    fn lists(&self, random: &mut Random) -> Listed {
        let before = self.before.list_at_once(random);
        let count = before.as_ref().map_or(0, Vec::len);
        let m = random.pick(&[1, 2, 3, 7]).max(count / 20);
        let after = self.after.list(m, random);
        let right = before.clone().map(|list| taken_out(list, self.document));
        assert_eq!(after, right, "the full list");
        before
    }

    /// The hits after are the first k of the k + 1 before, the document taken out. The count falls
    /// by 1 exactly where the full list before has it, and the mark is that of the count.
    fn hits(&self, k: u32, list: &[Hit], random: &mut Random) {
        let matched = list.iter().any(|hit| hit.document == self.document);
        let before = self.before.search(k + 1, self.before.case.t, random);
        let t = threshold(list.len() as u32, random);
        let right = before.map(|found| {
            let count = found.count.checked_sub(u64::from(matched));
            let count = count.expect("a count of all matches");
            let mut hits = taken_out(found.hits, self.document);
            hits.truncate(k as usize);
            Searched {
                hits,
                count,
                mark: count > u64::from(t) && count >= u64::from(k),
            }
        });
        let after = self.after.search(k, t, random);
        assert_eq!(after, right, "the hits, the count and the mark");
    }
}

fn taken_out(mut hits: Vec<Hit>, document: u32) -> Vec<Hit> {
    hits.retain(|hit| hit.document != document);
    hits
}

/// A threshold for the second Search: often where the mark comes or goes.
fn threshold(count: u32, random: &mut Random) -> u32 {
    let [two, one] = [2, 1].map(|less| count.saturating_sub(less));
    random.pick(&[0, two, one, count, u32::MAX])
}

/// A document to withdraw: mostly one below N, else at an edge or beyond.
pub fn some_document(case: &Case, random: &mut Random) -> u32 {
    let n = case.n;
    let last = n | 63;
    match random.below(8) {
        0 => random.pick(&[n.saturating_sub(1), n, n.saturating_add(1)]),
        1 => random.pick(&[0, 63, 64, last, last.saturating_add(1), u32::MAX]),
        _ => random.below(n.max(1)),
    }
}
