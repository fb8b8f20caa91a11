//! The time of writing an index from tokens: the library beside the judge's plain writer, on the
//! same tokens and into the same outputs.
use crate::timing::{least, median};
use harness::tokens::judge::{self, Judge};
use harness::tokens::sale::sale;
use harness::tokens::{self, Lengths, Tokens, Write, Writer};
use std::hint::black_box;
use std::time::Instant;

/// Tokens with outputs that are exactly long enough.
struct Sale {
    tokens: Tokens,
    norms: Vec<u8>,
    postings: Vec<u32>,
    positions: Vec<u32>,
    runs: Vec<u32>,
    answer: [u64; tokens::ANSWERED],
}

impl Sale {
    fn new(number: u32) -> Sale {
        let tokens = sale(number, 1);
        let needed = judge::needed(tokens.given()).expect("tokens that are not refused");
        Sale {
            tokens,
            norms: vec![1; needed.norms],
            postings: vec![1; needed.postings],
            positions: vec![1; needed.positions],
            runs: vec![1; needed.runs],
            answer: [0; tokens::ANSWERED],
        }
    }

    fn number(&self) -> usize {
        self.tokens.tokens.len() / tokens::WORDS
    }

    /// A call; without room for an answer it is refused 16 after all checks of the tokens.
    fn write(&mut self, writer: &dyn Writer, answered: usize) -> u32 {
        writer.write(Write {
            given: self.tokens.given(),
            norms: &mut self.norms,
            postings: &mut self.postings,
            positions: &mut self.positions,
            runs: &mut self.runs,
            answer: &mut self.answer[..answered],
        })
    }

    /// Both sides give the same before any time is taken.
    fn agrees(&mut self) {
        let right = judge::write(self.tokens.given(), &Lengths::LONGEST).expect("accepted");
        assert_eq!(self.write(tokens::held(), tokens::ANSWERED), 0);
        assert_eq!(self.answer, right.answer());
        assert!(self.norms == right.norms && self.runs == right.runs);
        assert!(self.postings == right.postings && self.positions == right.positions);
        assert_eq!(self.write(tokens::held(), 0), 16);
    }

    fn time(&mut self, writer: &dyn Writer, answered: usize) -> f64 {
        let start = Instant::now();
        _ = black_box(self.write(writer, answered));
        start.elapsed().as_secs_f64() / self.number() as f64
    }
}

/// Seconds for a token, a number for each round.
#[derive(Default)]
struct Times {
    ours: Vec<f64>,
    checks: Vec<f64>,
    judge: Vec<f64>,
}

pub fn run() {
    println!("\nan index written from tokens, beside a plain writer in Rust, which has a count");
    println!(
        "for each document; checks: the same call refused 16; ns for a token, medians (least)\n"
    );
    println!(
        "{:>10} {:>10} {:>10} {:>16} {:>16} {:>16} {:>16}",
        "tokens", "postings", "positions", "total", "checks", "plain", "total ÷ plain"
    );
    let few = row(100_000, 101);
    let many = row(10_000_000, 11);
    let [ours, plain] = [
        median(&many.ours) / median(&few.ours),
        median(&many.judge) / median(&few.judge),
    ];
    println!("\ntime for a token, the most ÷ the fewest: {ours:.2}, plain {plain:.2}");
}

fn row(number: u32, rounds: usize) -> Times {
    let mut sale = Sale::new(number);
    sale.agrees();
    let mut times = Times::default();
    for _ in 0..rounds {
        let all = tokens::ANSWERED;
        times.ours.push(sale.time(tokens::held(), all));
        times.checks.push(sale.time(tokens::held(), 0));
        times.judge.push(sale.time(&Judge, all));
    }
    let nanos = |times: &[f64]| format!("{:.2} ({:.2})", median(times) * 1e9, least(times) * 1e9);
    let ratio = median(&times.ours) / median(&times.judge);
    let least_ratio = least(&times.ours) / least(&times.judge);
    println!(
        "{:>10} {:>10} {:>10} {:>16} {:>16} {:>16} {:>16}",
        sale.number(),
        sale.answer[0],
        sale.answer[1],
        nanos(&times.ours),
        nanos(&times.checks),
        nanos(&times.judge),
        format!("{ratio:.2} ({least_ratio:.2})"),
    );
    times
}
