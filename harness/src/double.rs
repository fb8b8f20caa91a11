//! A stand-in for the library, made of the judge and the Rust; and wrong libraries, each of which
//! the differential run and the checks of the fuzz run have to catch.
use crate::answer::{Hit, NO_MORE_DOCS};
use crate::border::{Entries, Index, Page, Pick, Search, Work};
use crate::case::Case;
use crate::expect::{self, Found, Right, codes, found_numbers, page_numbers};
use crate::failed::wrong::Reading;
use crate::refusal::calls::Lengths;

/// What a wrong library does.
#[derive(Clone, Copy, Debug, PartialEq, Eq)]
pub enum Wrong {
    Nothing,
    FindsNothing,
    RefusesAll,
    LeavesOutputs,
    DropsTheLast,
    CountsHeld,
    NeverMarks,
    AlwaysMarks,
    FlipsLastBit,
    TurnsTies,
    ClearsBeyond,
    WritesOutside,
    EndsEarly,
    Resumes,
    ReadsRubbish,
    AsksMore,
    AsksLess,
    AnswersRefused,
    WorksRefused,
    TellsHigher,
    ScoresUp,
    LiveBitOfNext,
    /// not among the others: what catches it is asked in tests/failed_readings.rs
    Reads(Reading),
}

/// Every wrong one.
pub const WRONG: [Wrong; 21] = [
    Wrong::FindsNothing,
    Wrong::RefusesAll,
    Wrong::LeavesOutputs,
    Wrong::DropsTheLast,
    Wrong::CountsHeld,
    Wrong::NeverMarks,
    Wrong::AlwaysMarks,
    Wrong::FlipsLastBit,
    Wrong::TurnsTies,
    Wrong::ClearsBeyond,
    Wrong::WritesOutside,
    Wrong::EndsEarly,
    Wrong::Resumes,
    Wrong::ReadsRubbish,
    Wrong::AsksMore,
    Wrong::AsksLess,
    Wrong::AnswersRefused,
    Wrong::WorksRefused,
    Wrong::TellsHigher,
    Wrong::ScoresUp,
    Wrong::LiveBitOfNext,
];

/// What a call that is not refused leaves in the states.
const LEFT: u32 = 0x00c0_ffee;

pub struct Double(pub Wrong);

impl Entries for Double {
    fn search(&self, mut call: Search) -> u32 {
        let right = self.right(call.index, call.query);
        let lent = self.seen(Lengths {
            hits: call.hits.len(),
            answer: call.answer.len(),
            ..lengths(&call.work)
        });
        let mut right = match right.search(call.k, call.t, &lent) {
            Err(11) if self.0 == Wrong::TellsHigher && call.answer.len() < 3 => Err(12),
            right => right,
        };
        if let Ok(found) = &mut right {
            self.score(&mut found.hits);
        }
        let odd = call.work.states.first().is_some_and(|word| word % 2 == 1);
        self.work(&mut call.work, right.is_ok());
        let number = self.found(&right, call.hits, call.answer);
        if number == 0 && odd && self.0 == Wrong::ReadsRubbish {
            call.answer[1] += 1;
        }
        number
    }

    fn page(&self, mut call: Page) -> u32 {
        let resumed = self.0 == Wrong::Resumes && call.work.states.first() == Some(&LEFT);
        let target = call.target + u32::from(resumed && call.target < call.index.n);
        let right = self.right(call.index, call.query);
        let lent = self.seen(Lengths {
            documents: call.documents.len(),
            scores: call.scores.len(),
            answer: call.answer.len(),
            ..lengths(&call.work)
        });
        let right = right.page(target, &lent);
        self.work(&mut call.work, right.is_ok());
        let mut paged = match right {
            Err(12) if self.0 == Wrong::TellsHigher && target > call.index.n => return 13,
            Err(number) => return self.refused(number, call.answer),
            Ok(paged) => paged,
        };
        self.score(&mut paged.hits);
        match self.0 {
            Wrong::EndsEarly if paged.hits.is_empty() => paged.next = NO_MORE_DOCS,
            Wrong::DropsTheLast => _ = paged.hits.pop(),
            _ => {}
        }
        for (i, hit) in paged.hits.iter().enumerate() {
            (call.documents[i], call.scores[i]) = (hit.document, hit.bits);
        }
        if self.0 == Wrong::ClearsBeyond {
            call.scores[paged.hits.len()..].fill(0);
        }
        call.answer[..2].copy_from_slice(&page_numbers(&paged));
        0
    }

    fn pick(&self, call: Pick) -> u32 {
        let lent = Lengths {
            hits: call.hits.len(),
            answer: call.answer.len(),
            ..Lengths::default()
        };
        let right = expect::pick(call.documents, call.scores, call.k, call.t, &lent);
        self.found(&right, call.hits, call.answer)
    }
}

impl Double {
    fn right(&self, index: Index, query: &[u32]) -> Right {
        let case = self.case(index, query);
        match self.0 {
            Wrong::Reads(reading) => Right::read(&case, |case| reading.of(case)),
            _ => Right::new(&case),
        }
    }

    /// The case as a library sees it that asks the live bit of d + 1 for d.
    fn case(&self, index: Index, query: &[u32]) -> Case {
        let mut case = case(index, query);
        if self.0 == Wrong::LiveBitOfNext {
            let after = index.live.iter().skip(1).chain(&[u64::MAX]);
            let words = case.live.iter_mut().zip(after);
            words.for_each(|(word, after)| *word = *word >> 1 | after << 63);
        }
        case
    }

    /// The lengths as a library sees them that asks for too much or too little.
    fn seen(&self, mut lent: Lengths) -> Lengths {
        match self.0 {
            Wrong::AsksMore => lent.states = lent.states.saturating_sub(1),
            Wrong::AsksLess => lent.other_starts += 1,
            _ => {}
        }
        lent
    }

    /// Scores that are wrong alike in Search and Page: only the Rust tells.
    fn score(&self, hits: &mut [Hit]) {
        if self.0 == Wrong::ScoresUp {
            hits.iter_mut().for_each(|hit| hit.bits += 1);
        }
    }

    /// What a call does to its work buffers.
    fn work(&self, work: &mut Work, accepted: bool) {
        if accepted || self.0 == Wrong::WorksRefused {
            work.states.fill(LEFT);
            work.starts.fill(-5);
            work.other_starts.fill(7);
            work.ranges.fill(11);
        }
        if accepted && self.0 == Wrong::WritesOutside {
            // Safe here: a double is lent buffers with margins.
            unsafe { *work.ranges.as_mut_ptr().add(work.ranges.len()) ^= 1 };
        }
    }

    fn refused(&self, number: u32, answer: &mut [u64]) -> u32 {
        if self.0 == Wrong::AnswersRefused {
            answer.fill(u64::from(number));
        }
        number
    }

    /// Writes what Search and Pick give.
    fn found(&self, right: &Found, hits: &mut [i64], answer: &mut [u64]) -> u32 {
        let found = match right {
            Err(number) => return self.refused(*number, answer),
            Ok(found) => found,
        };
        let mut numbers = found_numbers(found);
        let mut codes = codes(&found.hits);
        match self.0 {
            Wrong::RefusesAll => return 7,
            Wrong::FindsNothing => (codes, numbers) = (vec![], [0; 3]),
            Wrong::LeavesOutputs => codes.clear(),
            Wrong::DropsTheLast => numbers[0] -= u64::from(codes.pop().is_some()),
            Wrong::CountsHeld => numbers[1] = numbers[0],
            Wrong::NeverMarks => numbers[2] = 0,
            Wrong::AlwaysMarks => numbers[2] = 1,
            Wrong::FlipsLastBit => codes.iter_mut().for_each(|code| *code ^= 1 << 32),
            Wrong::TurnsTies => codes.sort_by_key(|code| (-(code >> 32), code & 0xffff_ffff)),
            Wrong::ClearsBeyond => hits.fill(0),
            _ => {}
        }
        hits[..codes.len()].copy_from_slice(&codes);
        answer[..3].copy_from_slice(&numbers);
        0
    }
}

fn lengths(work: &Work) -> Lengths {
    Lengths {
        states: work.states.len(),
        starts: work.starts.len(),
        other_starts: work.other_starts.len(),
        ranges: work.ranges.len(),
        ..Lengths::default()
    }
}

/// The case that a call lends.
pub fn case(index: Index, query: &[u32]) -> Case {
    Case {
        n: index.n,
        fields: index.fields.to_vec(),
        leaves: index.leaves.to_vec(),
        postings: index.postings.to_vec(),
        positions: index.positions.to_vec(),
        norms: index.norms.to_vec(),
        live: index.live.to_vec(),
        columns: index.columns.to_vec(),
        values: index.values.to_vec(),
        query: query.to_vec(),
        ..Case::default()
    }
}
