//! What a call must give: the judge's number, or what the Rust answers; and that it stands in the
//! buffers, with all else as it was. Of an order with a NaN end it is what the Rust answers with that
//! range's ends crossed.
use crate::answer::{Hit, Paged, Searched};
use crate::buffer::Buffers;
#[cfg(oracle)]
use crate::case::Case;
#[cfg(oracle)]
use crate::failed::crossed;
#[cfg(oracle)]
use crate::oracle::{self, Oracle};
#[cfg(oracle)]
use crate::refusal::calls::{self, Judge, Lengths};

/// A refusal's number, or the answer.
pub type Found = Result<Searched, u32>;
pub type Given = Result<Paged, u32>;

/// What is right for the calls with one index and query.
#[cfg(oracle)]
pub struct Right {
    pub judge: Judge,
    oracle: Option<Oracle>,
    /// the full list, where the order is accepted
    pub list: Vec<Hit>,
}

#[cfg(oracle)]
impl Right {
    pub fn new(case: &Case) -> Right {
        Right::read(case, crossed)
    }

    /// The Rust is asked what `reading` makes of an accepted order.
    pub fn read(case: &Case, reading: impl FnOnce(&Case) -> Case) -> Right {
        let judge = Judge::new(case);
        let oracle = (judge.order == 0).then(|| Oracle::new(&reading(case)));
        let list = oracle.as_ref().map_or(vec![], Oracle::list);
        Right {
            judge,
            oracle,
            list,
        }
    }

    pub fn search(&self, k: u32, t: u32, lent: &Lengths) -> Found {
        match self.judge.search(k, lent) {
            0 => Ok(oracle::collect(&self.list, k, t)),
            number => Err(number),
        }
    }

    pub fn page(&self, target: u32, lent: &Lengths) -> Given {
        match (self.judge.page(target, lent), &self.oracle) {
            (0, Some(oracle)) => Ok(oracle.page(target, lent.documents)),
            (number, _) => Err(number),
        }
    }
}

#[cfg(oracle)]
pub fn pick(documents: &[u32], scores: &[u32], k: u32, t: u32, lent: &Lengths) -> Found {
    match calls::pick(documents, scores, k, lent) {
        0 => Ok(oracle::pick(documents, scores, k, t)),
        number => Err(number),
    }
}

/// After a call of Search or Pick that gave `number`.
pub fn found(buffers: &Buffers, number: u32, right: &Found) {
    match right {
        Err(refused) => is_refused(buffers, number, *refused),
        Ok(searched) => {
            assert_eq!(number, 0);
            buffers.hits.holds(&codes(&searched.hits));
            buffers.answer.holds(&found_numbers(searched));
            buffers.documents.is_kept();
            buffers.scores.is_kept();
            buffers.work_is_kept_around();
        }
    }
}

/// After a call of Page that gave `number`.
pub fn given(buffers: &Buffers, number: u32, right: &Given) {
    match right {
        Err(refused) => is_refused(buffers, number, *refused),
        Ok(paged) => {
            assert_eq!(number, 0);
            let documents: Vec<_> = paged.hits.iter().map(|hit| hit.document).collect();
            let bits: Vec<_> = paged.hits.iter().map(|hit| hit.bits).collect();
            buffers.documents.holds(&documents);
            buffers.scores.holds(&bits);
            buffers.answer.holds(&page_numbers(paged));
            buffers.hits.is_kept();
            buffers.work_is_kept_around();
        }
    }
}

fn is_refused(buffers: &Buffers, number: u32, refused: u32) {
    assert_eq!(number, refused, "the refusal");
    buffers.are_kept();
}

pub fn codes(hits: &[Hit]) -> Vec<i64> {
    hits.iter().map(|hit| hit.code()).collect()
}

pub fn found_numbers(searched: &Searched) -> [u64; 3] {
    let held = searched.hits.len() as u64;
    [held, searched.count, u64::from(searched.mark)]
}

pub fn page_numbers(paged: &Paged) -> [u64; 2] {
    [paged.hits.len() as u64, u64::from(paged.next)]
}

/// What an accepted call of Search or Pick wrote, as it stands in the buffers.
pub fn told(buffers: &Buffers) -> Searched {
    let [held, count, mark] = buffers.answer.held()[..3] else {
        panic!("an answer of three numbers");
    };
    let codes = &buffers.hits.held()[..held as usize];
    Searched {
        hits: codes.iter().map(|code| Hit::of(*code)).collect(),
        count,
        mark: mark == 1,
    }
}

/// What an accepted call of Page wrote: the page as it stands in the buffers.
pub fn written(buffers: &Buffers) -> Paged {
    let [given, next] = buffers.answer.held()[..2] else {
        panic!("an answer of two numbers");
    };
    let documents = &buffers.documents.held()[..given as usize];
    let pairs = documents.iter().zip(buffers.scores.held());
    let hits = pairs.map(|(&document, &bits)| Hit { document, bits });
    Paged {
        hits: hits.collect(),
        next: u32::try_from(next).expect("a document"),
    }
}
