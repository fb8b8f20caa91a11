//! An order made ready for both sides, and the times of its calls.
use harness::answer::Searched;
use harness::border::{Entries, Library, Search, Work};
use harness::expect::{codes, found_numbers};
use harness::lots::lent::Lent;
use harness::lots::{self, Drawn, Workload};
use harness::oracle::Oracle;
use harness::refusal::calls::{self, FOUND, Judge, Lengths};
use std::hint::black_box;
use std::sync::Arc;
use std::time::Instant;

/// One order: what is lent, the buffers, and the Rust's index of the same.
pub struct Order {
    pub name: &'static str,
    lent: Lent,
    oracle: Oracle,
    k: u32,
    states: Vec<u32>,
    starts: Vec<i32>,
    other_starts: Vec<i32>,
    ranges: Vec<u32>,
    hits: Vec<i64>,
    answer: [u64; FOUND],
}

impl Order {
    /// An order with a catalogue of its own, which is lent whole.
    pub fn alone(workload: &Workload, n: u32, seed: u64) -> Order {
        let case = lots::case(workload, n, seed);
        let judge = Judge::new(&case);
        assert_eq!(judge.order, 0);
        let oracle = Oracle::new(&case);
        Order::new(workload, Lent::all(case), oracle, &judge.needed)
    }

    /// So many orders of these kinds over one catalogue, in a drawn order.
    pub fn sheet(kinds: &[&'static Workload], n: u32, number: usize) -> Vec<Order> {
        let (case, drawn) = lots::sheet(kinds, n, number, 1);
        let oracle = Oracle::new(&case);
        let case = Arc::new(case);
        let order = |Drawn { workload, order }: Drawn| {
            let lent = Lent::own(&case, &order);
            let needed = calls::needed(&case, &order);
            Order::new(workload, lent, oracle.with_order(&order), &needed)
        };
        drawn.into_iter().map(order).collect()
    }

    fn new(workload: &Workload, lent: Lent, oracle: Oracle, needed: &Lengths) -> Order {
        Order {
            name: workload.name,
            lent,
            oracle,
            k: workload.k,
            states: vec![0; needed.states],
            starts: vec![0; needed.starts],
            other_starts: vec![0; needed.other_starts],
            ranges: vec![0; needed.ranges],
            hits: vec![0; workload.k as usize],
            answer: [0; FOUND],
        }
    }

    /// The library's Search.
    pub fn ours(&mut self) -> u32 {
        self.call(self.k)
    }

    /// The same call with k 0: it is refused 11 after all its checks of index and query.
    pub fn checks(&mut self) -> u32 {
        self.call(0)
    }

    fn call(&mut self, k: u32) -> u32 {
        Library.search(Search {
            index: self.lent.index(),
            query: &self.lent.query,
            k,
            t: self.lent.catalogue.t,
            work: Work {
                states: &mut self.states,
                starts: &mut self.starts,
                other_starts: &mut self.other_starts,
                ranges: &mut self.ranges,
            },
            hits: &mut self.hits,
            answer: &mut self.answer,
        })
    }

    pub fn rust(&self) -> Searched {
        self.oracle.walk(self.k, self.lent.catalogue.t)
    }

    /// Bytes of the catalogue, where it is lent whole.
    pub fn bytes(&self) -> usize {
        let words = self.lent.catalogue.words();
        4 * words.map(<[u32]>::len).iter().sum::<usize>()
    }

    fn sum(&self) -> u32 {
        let sum = |words: &[u32]| words.iter().fold(0u32, |sum, word| sum.wrapping_add(*word));
        let words = self.lent.catalogue.words();
        words.map(sum).iter().fold(0, |a, b| a ^ b)
    }

    /// Both sides give the same before any time is taken.
    pub fn agrees(&mut self) {
        let right = self.rust();
        assert_eq!(self.ours(), 0);
        let codes = codes(&right.hits);
        assert_eq!(self.answer, found_numbers(&right));
        assert_eq!(self.hits[..codes.len()], codes);
        assert_eq!(self.checks(), 11);
    }
}

/// Seconds for one call of each sort, a number for each round.
#[derive(Default)]
pub struct Times {
    pub ours: Vec<f64>,
    pub checks: Vec<f64>,
    pub rust: Vec<f64>,
    pub sum: Vec<f64>,
}

impl Times {
    /// A round of all sorts of calls.
    pub fn add(&mut self, orders: &mut [Order], repeated: bool) {
        let ours = |order: &mut Order| _ = black_box(order.ours());
        self.ours.push(time(orders, repeated, ours));
        let checks = |order: &mut Order| _ = black_box(order.checks());
        self.checks.push(time(orders, repeated, checks));
        let rust = |order: &mut Order| _ = black_box(order.rust());
        self.rust.push(time(orders, repeated, rust));
        let sum = |order: &mut Order| _ = black_box(order.sum());
        self.sum.push(time(orders, repeated, sum));
    }

    /// Total less checks, round by round.
    pub fn walk(&self) -> Vec<f64> {
        let rounds = self.ours.iter().zip(&self.checks);
        rounds.map(|(ours, checks)| ours - checks).collect()
    }
}

/// Seconds for a call, on average over the orders in turn; or the first as often.
pub fn time(orders: &mut [Order], repeated: bool, mut call: impl FnMut(&mut Order)) -> f64 {
    let number = orders.len();
    let start = Instant::now();
    for at in 0..number {
        call(&mut orders[if repeated { 0 } else { at }]);
    }
    start.elapsed().as_secs_f64() / number as f64
}

/// Seconds for each order's call, one order after the other.
pub fn laps(orders: &mut [Order], mut call: impl FnMut(&mut Order)) -> Vec<f64> {
    let mut before = Instant::now();
    let mut lap = |order: &mut Order| {
        call(order);
        let start = std::mem::replace(&mut before, Instant::now());
        (before - start).as_secs_f64()
    };
    orders.iter_mut().map(&mut lap).collect()
}

pub fn median(times: &[f64]) -> f64 {
    let mut sorted = times.to_vec();
    sorted.sort_by(f64::total_cmp);
    sorted[sorted.len() / 2]
}

pub fn least(times: &[f64]) -> f64 {
    times.iter().copied().fold(f64::INFINITY, f64::min)
}
