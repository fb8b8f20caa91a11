//! What holds of every accepted call, whatever the order: none of it asks the Rust.
use super::{Call, Fuzz, Lists};
use crate::answer::{Hit, NO_MORE_DOCS, Paged, Searched};
use crate::buffer::{Buffer, Buffers};
use crate::case::Case;
use crate::expect::{self, written};
use crate::failed::{crossed, has_failed_end};
use crate::random::Random;
use crate::refusal::calls::{Judge, Lengths, PAGED};
use std::cmp::Reverse;

const INFINITY: u32 = 0x7f80_0000;

/// Documents to a page of the joined list.
const PAGE: usize = 5000;

impl Fuzz<'_> {
    /// Search gives the best k of what the pages list, the same again with other rubbish, and the
    /// same where ranges with a NaN end are crossed.
    pub(super) fn search_laws(
        &mut self,
        case: &Case,
        judge: &Judge,
        buffers: &Buffers,
        random: &mut Random,
    ) {
        let list = self.joined(case, judge, random);
        let best = best(&list, case.k, case.t);
        expect::found(buffers, 0, &Ok(best.clone()));
        let mut again = again(buffers, random);
        let number = self.number(Call::Search(case), &mut again, random);
        expect::found(&again, number, &Ok(best.clone()));
        if has_failed_end(case) {
            let mut again = self::again(buffers, random);
            let number = self.number(Call::Search(&crossed(case)), &mut again, random);
            expect::found(&again, number, &Ok(best));
        }
    }

    /// The pages from 0 on, joined.
    fn joined(&mut self, case: &Case, judge: &Judge, random: &mut Random) -> Vec<Hit> {
        let m = PAGE.min(case.n as usize + 1);
        let mut list = Vec::new();
        let mut target = 0;
        while target != NO_MORE_DOCS {
            let page = self.page_of(case, judge, target, m, random);
            in_order(case, target, m, &page);
            target = page.next;
            list.extend(page.hits);
        }
        list
    }

    /// A page in buffers of its own.
    fn page_of(
        &mut self,
        case: &Case,
        judge: &Judge,
        target: u32,
        m: usize,
        random: &mut Random,
    ) -> Paged {
        let lent = Lengths {
            documents: m,
            scores: m,
            answer: PAGED,
            ..judge.needed
        };
        let mut buffers = Buffers::new(random, &lent);
        let number = self.number(Call::Page(case, target), &mut buffers, random);
        assert_eq!(number, 0, "the number of a page that is not refused");
        let page = written(&buffers);
        expect::given(&buffers, number, &Ok(page.clone()));
        page
    }

    /// A page rises, ends where the list does, is the front of a page that is one longer, is the
    /// same again with other rubbish, and the same where ranges with a NaN end are crossed.
    pub(super) fn page_laws(
        &mut self,
        case: &Case,
        judge: &Judge,
        target: u32,
        buffers: &Buffers,
        random: &mut Random,
    ) {
        let page = written(buffers);
        expect::given(buffers, 0, &Ok(page.clone()));
        let m = buffers.documents.held().len();
        in_order(case, target, m, &page);
        let longer = self.page_of(case, judge, target, m + 1, random);
        in_order(case, target, m + 1, &longer);
        let next = longer.hits.get(m).map_or(NO_MORE_DOCS, |hit| hit.document);
        let front = longer.hits[..page.hits.len()].to_vec();
        assert_eq!(page, Paged { hits: front, next }, "a longer page");
        let mut again = again(buffers, random);
        let number = self.number(Call::Page(case, target), &mut again, random);
        expect::given(&again, number, &Ok(page.clone()));
        if has_failed_end(case) {
            let mut again = self::again(buffers, random);
            let number = self.number(Call::Page(&crossed(case), target), &mut again, random);
            expect::given(&again, number, &Ok(page));
        }
    }

    /// Pick gives the best k of its lists, and the same again with other rubbish.
    pub(super) fn pick_laws(&mut self, lists: &Lists, buffers: &Buffers, random: &mut Random) {
        let pairs = lists.documents.iter().zip(&lists.scores);
        let list: Vec<_> = pairs
            .map(|(&document, &bits)| Hit { document, bits })
            .collect();
        let best = best(&list, lists.k, lists.t);
        expect::found(buffers, 0, &Ok(best.clone()));
        let mut again = again(buffers, random);
        let number = self.number(Call::Pick(lists), &mut again, random);
        expect::found(&again, number, &Ok(best));
    }
}

/// The first k by code, so that hits descend and min(k, count) are held; the count and the mark.
fn best(list: &[Hit], k: u32, t: u32) -> Searched {
    let mut hits = list.to_vec();
    hits.sort_by_key(|hit| Reverse(hit.code()));
    hits.truncate(k as usize);
    let count = list.len() as u64;
    Searched {
        hits,
        count,
        mark: count > u64::from(t) && count >= u64::from(k),
    }
}

/// Documents rise from the target, each below N and live, with scores from 0 up; the page is full
/// or the list ends, and the next match comes after the last.
fn in_order(case: &Case, target: u32, m: usize, page: &Paged) {
    let live = |document: u32| document < case.n && case.is_live(document);
    let mut least = target;
    for hit in &page.hits {
        assert!(hit.document >= least, "a page that does not rise");
        assert!(live(hit.document), "no live document below N");
        assert!(hit.bits <= INFINITY, "a score that is no amount");
        least = hit.document + 1;
    }
    let ended = page.next == NO_MORE_DOCS;
    assert!(page.hits.len() == m || ended, "neither full nor at the end");
    assert!(ended || page.next >= least, "a next match that is given");
    assert!(ended || live(page.next), "a next match that is not live");
}

/// Buffers of the same lengths with other rubbish; the work buffers often as they were left.
fn again(buffers: &Buffers, random: &mut Random) -> Buffers {
    let mut again = buffers.clone();
    if random.once_in(2) {
        again.states = Buffer::new(random, buffers.states.held().len());
        again.starts = Buffer::new(random, buffers.starts.held().len());
        again.other_starts = Buffer::new(random, buffers.other_starts.held().len());
        again.ranges = Buffer::new(random, buffers.ranges.held().len());
    }
    again.hits = Buffer::new(random, buffers.hits.held().len());
    again.documents = Buffer::new(random, buffers.documents.held().len());
    again.scores = Buffer::new(random, buffers.scores.held().len());
    again.answer = Buffer::new(random, buffers.answer.held().len());
    again.settle();
    again
}
