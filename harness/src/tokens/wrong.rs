//! Wrong writers, each of which the tests have to catch. They take token by token, so the one that
//! is not wrong in anything is a second writer beside the judge's.
use super::damage::REASONS;
use super::judge;
use super::make::WINDOW;
use super::norm_byte::norm_byte;
use super::{Given, Lengths, Token, WORDS, Write, Writer, Written};

/// What a wrong writer does.
#[derive(Clone, Copy, Debug, PartialEq, Eq)]
pub enum Wrong {
    Nothing,
    /// a posting counts once for the norm, not by its frequency
    NormOfPostings,
    /// repeats don't count for the norm
    NormOfDistinct,
    /// the norm from the first leaf of the field only
    NormOfOneLeaf,
    /// tokens of all fields counted for each norm
    NormOfAllFields,
    /// the count itself, or 255
    NormNotCoded,
    /// norm bytes for every field
    NormsForEveryField,
    /// norm bytes of documents without tokens left as they were
    NormsLeft,
    /// counts of a window not set back to 0 before the next
    WindowsAdded,
    /// the last document of each window not counted
    WindowEndMissed,
    /// documents behind the last whole window not counted
    LastWindowMissed,
    /// counts of a field not set back to 0 before the next
    FieldsAdded,
    EmptyRunAtZero,
    /// an empty run begins at the number of postings
    EmptyRunAtEnd,
    /// no runs for leaves behind the last that has tokens
    LastRunsMissing,
    /// a posting's index is not 0 in a field without positions
    IndexWithoutPositions,
    /// positions written, and counted, in a field without them
    PositionsEverywhere,
    /// a new posting only where the document differs
    JoinsLeaves,
    /// a new posting for every token
    PostingForEach,
    DropsRepeats,
    RefusesRepeats,
    FirstUnchecked,
    LastUnchecked,
    /// the position is not looked at in a field without positions
    PositionUnchecked,
    /// one of the reasons for 15 is not looked at
    Ignores(usize),
    /// averages of fields not looked at
    IgnoresAverages,
    RefusesLastPosition,
    /// as many postings and positions asked for as there are tokens
    AsksMore,
    /// one of the outputs is asked for with one element less
    AsksLess(usize),
    /// 16 where 15 holds too
    ShortFirst,
    /// 15 where 2 holds too
    TokensFirst,
    /// numbers of words answered
    AnswersWords,
    /// the rest of one output set to 0
    ClearsBeyond(usize),
    /// a refused call has set one output to 0
    WritesRefused(usize),
    RefusesAll,
    LeavesOutputs,
}

/// Every wrong one of those that are not of one output or reason.
const SINGLE: [Wrong; 31] = [
    Wrong::NormOfPostings,
    Wrong::NormOfDistinct,
    Wrong::NormOfOneLeaf,
    Wrong::NormOfAllFields,
    Wrong::NormNotCoded,
    Wrong::NormsForEveryField,
    Wrong::NormsLeft,
    Wrong::WindowsAdded,
    Wrong::WindowEndMissed,
    Wrong::LastWindowMissed,
    Wrong::FieldsAdded,
    Wrong::EmptyRunAtZero,
    Wrong::EmptyRunAtEnd,
    Wrong::LastRunsMissing,
    Wrong::IndexWithoutPositions,
    Wrong::PositionsEverywhere,
    Wrong::JoinsLeaves,
    Wrong::PostingForEach,
    Wrong::DropsRepeats,
    Wrong::RefusesRepeats,
    Wrong::FirstUnchecked,
    Wrong::LastUnchecked,
    Wrong::PositionUnchecked,
    Wrong::IgnoresAverages,
    Wrong::RefusesLastPosition,
    Wrong::AsksMore,
    Wrong::ShortFirst,
    Wrong::TokensFirst,
    Wrong::AnswersWords,
    Wrong::RefusesAll,
    Wrong::LeavesOutputs,
];

/// Every wrong one.
pub fn every() -> Vec<Wrong> {
    let mut all = SINGLE.to_vec();
    all.extend((0..REASONS.len()).map(Wrong::Ignores));
    all.extend((0..5).map(Wrong::AsksLess));
    all.extend((0..5).map(Wrong::ClearsBeyond));
    all.extend((0..5).map(Wrong::WritesRefused));
    all
}

pub struct WrongWriter(pub Wrong);

impl Writer for WrongWriter {
    fn write(&self, call: Write) -> u32 {
        let lent = Lengths::of(&call);
        let number = self.number(call.given, &lent);
        if number != 0 {
            self.refused(call);
            return number;
        }
        // what is wrongly accepted is told by the number
        if judge::number(call.given, &Lengths::LONGEST) == 0 && self.0 != Wrong::LeavesOutputs {
            self.answer(call);
        }
        0
    }
}

impl WrongWriter {
    /// The number that it gives.
    fn number(&self, given: Given, lent: &Lengths) -> u32 {
        let right = judge::number(given, lent);
        let refused = self.refuses(given);
        match (self.0, right) {
            (Wrong::RefusesAll, _) => 15,
            (Wrong::IgnoresAverages, 2) => self.without_averages(given, lent),
            (Wrong::TokensFirst, 2) if refused => 15,
            (Wrong::ShortFirst, 15) if lent.answer < 2 => 16,
            (_, 1 | 2) => right,
            _ if refused => 15,
            (_, 15) => 0,
            _ if self.short(given, lent) => 16,
            _ => 0,
        }
    }

    fn without_averages(&self, given: Given, lent: &Lengths) -> u32 {
        let mut fields = given.fields.to_vec();
        let averages = fields.iter_mut().step_by(WORDS);
        averages.for_each(|average| *average = 0x3f80_0000);
        let fields = &fields;
        match judge::number(Given { fields, ..given }, lent) {
            2 => 2,
            _ => 0,
        }
    }

    /// Whether it sees a reason for 15.
    fn refuses(&self, given: Given) -> bool {
        let tokens = given.tokens;
        let given = match self.0 {
            Wrong::FirstUnchecked if tokens.len() >= WORDS => Given {
                tokens: &tokens[WORDS..],
                ..given
            },
            Wrong::LastUnchecked if tokens.len() >= WORDS => Given {
                tokens: &tokens[..tokens.len() - WORDS],
                ..given
            },
            _ => given,
        };
        let unchecked = self.without_positions(given);
        let given = Given {
            tokens: unchecked.as_deref().unwrap_or(given.tokens),
            ..given
        };
        let ignored = |at: usize| self.0 == Wrong::Ignores(at);
        let mut reasons = REASONS.iter().enumerate();
        let repeats = given.records().windows(2).any(|pair| pair[0] == pair[1]);
        let mut records = given.records().iter();
        reasons.any(|(at, (_, holds))| !ignored(at) && holds(given))
            || self.0 == Wrong::RefusesRepeats && repeats
            || self.0 == Wrong::RefusesLastPosition && records.any(|t| t[2] == super::MOST_POSITION)
    }

    /// The tokens with every position 0 in a field without positions, for one that does not look.
    fn without_positions(&self, given: Given) -> Option<Vec<u32>> {
        if self.0 != Wrong::PositionUnchecked {
            return None;
        }
        let there = |leaf: u32| {
            let field = given.leaf_fields.get(leaf as usize);
            field.and_then(|field| given.fields.get(WORDS * *field as usize + 2))
        };
        let zero = |&[leaf, document, position]: &Token| match there(leaf) {
            Some(0) => [leaf, document, 0],
            _ => [leaf, document, position],
        };
        let mut tokens: Vec<_> = given.records().iter().flat_map(zero).collect();
        tokens.extend(&given.tokens[tokens.len()..]);
        Some(tokens)
    }

    /// Whether it takes the outputs for too short.
    fn short(&self, given: Given, lent: &Lengths) -> bool {
        let mut needed = judge::needed(given).unwrap_or_default();
        match self.0 {
            Wrong::AsksMore => {
                needed.postings = given.tokens.len();
                needed.positions = given.tokens.len() / WORDS;
            }
            Wrong::NormsForEveryField => {
                needed.norms = given.n as usize * given.fields.len() / WORDS;
            }
            Wrong::AsksLess(which) => {
                let length = &mut *needed.each()[which];
                *length = length.saturating_sub(1);
            }
            _ => {}
        }
        let mut lent = *lent;
        let pairs = lent.each().into_iter().zip(needed.each());
        pairs.into_iter().any(|(lent, needed)| *lent < *needed)
    }

    fn refused(&self, call: Write) {
        match self.0 {
            Wrong::WritesRefused(0) => call.norms.fill(0),
            Wrong::WritesRefused(1) => call.postings.fill(0),
            Wrong::WritesRefused(2) => call.positions.fill(0),
            Wrong::WritesRefused(3) => call.runs.fill(0),
            Wrong::WritesRefused(_) => call.answer.fill(0),
            _ => {}
        }
    }

    fn answer(&self, call: Write) {
        let mut written = self.packed(call.given);
        written.norms = self.norms(call.given);
        let mut answer = written.answer();
        if self.0 == Wrong::AnswersWords {
            answer[0] *= WORDS as u64;
        }
        if self.0 == Wrong::NormsLeft {
            let pairs = written.norms.iter_mut().zip(&*call.norms);
            pairs
                .filter(|(byte, _)| **byte == 0)
                .for_each(|(byte, left)| *byte = *left);
        }
        let clears = |which| self.0 == Wrong::ClearsBeyond(which);
        put(call.norms, &written.norms, clears(0));
        put(call.postings, &written.postings, clears(1));
        put(call.positions, &written.positions, clears(2));
        put(call.runs, &written.runs, clears(3));
        put(call.answer, &answer, clears(4));
    }

    /// All but the norms, token by token.
    fn packed(&self, given: Given) -> Written {
        let mut written = Written::default();
        let mut numbers = vec![0; given.leaf_fields.len()];
        let mut before = None;
        for token in given.records() {
            let [leaf, document, position] = *token;
            let with = given.has_positions(leaf) || self.0 == Wrong::PositionsEverywhere;
            if self.begins(before, token) {
                let index = match with || self.0 == Wrong::IndexWithoutPositions {
                    true => written.positions.len() as u32,
                    false => 0,
                };
                written.postings.extend([document, 0, index]);
                numbers[leaf as usize] += 1;
            }
            if self.0 != Wrong::DropsRepeats || before != Some(*token) {
                let last = written.postings.len() - WORDS;
                written.postings[last + 1] += 1;
                written.positions.extend(with.then_some(position));
            }
            before = Some(*token);
        }
        written.runs = self.runs(&numbers);
        written
    }

    /// Whether a posting begins with a token.
    fn begins(&self, before: Option<Token>, token: &Token) -> bool {
        let Some(before) = before else {
            return true;
        };
        match self.0 {
            Wrong::JoinsLeaves => before[1] != token[1],
            Wrong::PostingForEach => true,
            _ => before[0] != token[0] || before[1] != token[1],
        }
    }

    /// First posting and number for each leaf.
    fn runs(&self, numbers: &[u32]) -> Vec<u32> {
        let all: u32 = numbers.iter().sum();
        let used = numbers.iter().rposition(|number| *number > 0);
        let written = match self.0 {
            Wrong::LastRunsMissing => used.map_or(0, |last| last + 1),
            _ => numbers.len(),
        };
        let mut runs = Vec::new();
        let mut end = 0;
        for number in &numbers[..written] {
            let first = match (self.0, number) {
                (Wrong::EmptyRunAtZero, 0) => 0,
                (Wrong::EmptyRunAtEnd, 0) => all,
                _ => end,
            };
            runs.extend([first, *number]);
            end += number;
        }
        runs
    }

    /// The norm bytes, from the tokens.
    fn norms(&self, given: Given) -> Vec<u8> {
        let tokens = self.tokens_counted(given);
        let all: Vec<_> = (0..given.fields.len() as u32 / 3).collect();
        let fields = match self.0 {
            Wrong::NormsForEveryField => all,
            _ => given.with_norms().collect(),
        };
        let mut counts = vec![0; given.n as usize];
        let mut norms = Vec::new();
        for field in fields {
            if self.0 != Wrong::FieldsAdded {
                counts.fill(0);
            }
            for [leaf, document, _] in &tokens {
                let own = given.leaf_fields[*leaf as usize] == field;
                let counted = own || self.0 == Wrong::NormOfAllFields;
                counts[*document as usize] += u32::from(counted);
            }
            if self.0 == Wrong::WindowsAdded {
                let window = WINDOW as usize;
                (window..counts.len()).for_each(|at| counts[at] += counts[at - window]);
            }
            let byte = |count: &u32| match self.0 {
                Wrong::NormNotCoded => (*count).min(255) as u8,
                _ => norm_byte(*count),
            };
            norms.extend(counts.iter().map(byte));
        }
        norms
    }

    /// The tokens that it counts for norms.
    fn tokens_counted(&self, given: Given) -> Vec<Token> {
        let mut tokens = given.records().to_vec();
        let field = |leaf: u32| given.leaf_fields[leaf as usize];
        let first = |leaf: u32| (0..leaf).all(|before| field(before) != field(leaf));
        let whole = given.n - given.n % WINDOW;
        match self.0 {
            Wrong::NormOfPostings => tokens.dedup_by_key(|token| [token[0], token[1]]),
            Wrong::NormOfDistinct => tokens.dedup(),
            Wrong::NormOfOneLeaf => tokens.retain(|token| first(token[0])),
            Wrong::WindowEndMissed => tokens.retain(|token| (token[1] + 1) % WINDOW != 0),
            Wrong::LastWindowMissed if whole > 0 => tokens.retain(|token| token[1] < whole),
            _ => {}
        }
        tokens
    }
}

/// Puts a list at the front of an output, as far as it fits.
fn put<T: Copy + Default>(output: &mut [T], list: &[T], clears: bool) {
    let fits = list.len().min(output.len());
    output[..fits].copy_from_slice(&list[..fits]);
    if clears {
        output[fits..].fill(T::default());
    }
}
