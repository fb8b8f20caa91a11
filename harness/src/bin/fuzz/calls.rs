//! The calls, one for each seed, on all processors.
use crate::fault;
use crate::memory::Memory;
use harness::border::Library;
use harness::fuzz::input::Inputs;
use harness::fuzz::{Against, Fuzz, Made};
use harness::tokens;
use std::sync::Mutex;
use std::sync::atomic::{AtomicU64, Ordering};
use std::thread;
use std::time::{Duration, Instant};

const NAMES: [&str; 4] = ["search", "page", "pick", "write"];

/// The entry whose calls are held to the judge alone.
const WRITE: usize = 3;

/// How often each number was given by each entry, how often an accepted call of each was held to the
/// Rust, and how often one with a NaN end to the same order crossed.
#[derive(Default)]
struct Counts {
    given: [[u64; 17]; 4],
    by_rust: [u64; 4],
    crossed: u64,
}

impl Counts {
    fn count(&mut self, made: &Made) {
        self.given[made.entry][made.number as usize] += 1;
        self.by_rust[made.entry] += u64::from(made.by_rust);
        self.crossed += u64::from(made.crossed);
    }

    fn add(&mut self, other: &Counts) {
        let given = other.given.as_flattened();
        let counts = self.given.as_flattened_mut().iter_mut();
        counts.zip(given).for_each(|(all, own)| *all += own);
        let counts = self.by_rust.iter_mut().zip(other.by_rust);
        counts.for_each(|(all, own)| *all += own);
        self.crossed += other.crossed;
    }
}

pub fn run(seconds: u64, first: u64) {
    fault::watch();
    let end = Instant::now() + Duration::from_secs(seconds);
    let next = AtomicU64::new(first);
    let counts = Mutex::new(Counts::default());
    let inputs = Inputs::new();
    let one = || {
        let _told = Told;
        let own = calls(&inputs, &next, end);
        counts.lock().unwrap().add(&own);
    };
    let processors = thread::available_parallelism().map_or(1, |number| number.get());
    thread::scope(|scope| (0..processors).for_each(|_| _ = scope.spawn(one)));
    report(&counts.into_inner().unwrap(), seconds);
}

/// Tells at which seed something was not right.
struct Told;

impl Drop for Told {
    fn drop(&mut self) {
        if thread::panicking() {
            eprintln!("at seed {}", fault::seed());
        }
    }
}

fn calls(inputs: &Inputs, next: &AtomicU64, end: Instant) -> Counts {
    let mut counts = Counts::default();
    let mut fuzz = Fuzz {
        entries: &Library,
        writer: tokens::held(),
        inputs,
        against: Against::MOST,
        lend: &mut Memory::new(),
    };
    while Instant::now() < end {
        let seed = next.fetch_add(1, Ordering::Relaxed);
        fault::at(seed);
        counts.count(&fuzz.call(seed));
    }
    counts
}

/// Which numbers each entry can give.
const GIVEN: [&[usize]; 4] = [
    &[0, 1, 2, 3, 4, 5, 6, 7, 8, 9, 10, 11, 12],
    &[0, 1, 2, 3, 4, 5, 6, 7, 8, 9, 10, 12, 13],
    &[0, 11, 12, 14],
    &[0, 1, 2, 15, 16],
];

/// Of so many calls of an entry at least one has to be accepted.
const ONE_IN: u64 = 4;

/// A run of ten seconds or more has to give every number, and to accept a good share of the calls.
fn report(counts: &Counts, seconds: u64) {
    let mut all = [0; 4];
    for (entry, name) in NAMES.iter().enumerate() {
        let given = &counts.given[entry];
        let numbers = GIVEN[entry].iter().map(|n| format!("{n}: {}", given[*n]));
        println!("{name}: {}", numbers.collect::<Vec<_>>().join(", "));
        let missed = GIVEN[entry].iter().any(|n| given[*n] == 0);
        assert!(seconds < 10 || !missed, "a number was never given");
        let (calls, accepted) = (given.iter().sum::<u64>(), given[0]);
        let few = ONE_IN * accepted < calls;
        assert!(seconds < 10 || !few, "{name} accepts too few calls");
        let by_rust = counts.by_rust[entry];
        let row = [calls, accepted, by_rust, accepted - by_rust];
        all.iter_mut().zip(row).for_each(|(all, own)| *all += own);
    }
    let [calls, accepted, by_rust, others] = all;
    let (by_judge, crossed) = (counts.given[WRITE][0], counts.crossed);
    let by_laws = others - by_judge - crossed;
    println!("{calls} calls, {accepted} accepted and held to the laws or the judge");
    println!(
        "{by_rust} of these held against the Rust, {crossed} with a NaN end to the same order with \
         the ends crossed, {by_judge} indexes written as the judge's, {by_laws} by laws alone"
    );
    assert!(seconds < 10 || crossed > 0, "no call with a NaN end");
    assert!(accepted > 0, "nothing was called");
}
