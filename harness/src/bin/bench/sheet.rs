//! Orders of many kinds in turn over one catalogue, each lent with its own words: one number for
//! all of them, and a line for each kind.
use crate::report;
use crate::targets::{self, Targets};
use crate::timing::{Order, Times, laps};
use harness::lots::{WORKLOADS, Workload};
use std::hint::black_box;

/// A sheet of all kinds, and one of what is typed.
pub const NAMES: [&str; 2] = ["sheet", "typed together"];

/// Orders of a sheet.
const ORDERS: usize = 200;

/// Seconds of the calls of each order.
struct Laps {
    ours: Vec<Vec<f64>>,
    checks: Vec<Vec<f64>>,
    rust: Vec<Vec<f64>>,
}

/// Runs the sheets that are named so.
pub fn run(n: u32, rounds: usize, is_named: impl Fn(&str) -> bool) {
    for name in NAMES.into_iter().filter(|name| is_named(name)) {
        one(name, n, rounds);
    }
}

fn is_of(name: &str, workload: &Workload) -> bool {
    match name {
        "sheet" => workload.lends_its_own(),
        _ => workload.is_typed(),
    }
}

fn one(name: &str, n: u32, rounds: usize) {
    let all = WORKLOADS.iter();
    let kinds: Vec<_> = all.filter(|workload| is_of(name, workload)).collect();
    let mut orders = Order::sheet(&kinds, n, ORDERS);
    orders.iter_mut().for_each(Order::agrees);
    let laps = Laps::new(&mut orders, rounds);
    println!("\n{name}: {ORDERS} orders over one catalogue, the kinds in a drawn order\n");
    for kind in kinds {
        let own = laps.times(&orders, |order| order.name == kind.name);
        report::print(kind.name, "across", &own, Targets::default());
    }
    let all = laps.times(&orders, |_| true);
    report::print(name, "in turn", &all, targets::of(name));
}

impl Laps {
    fn new(orders: &mut [Order], rounds: usize) -> Laps {
        let mut laps = Laps {
            ours: vec![Vec::new(); orders.len()],
            checks: vec![Vec::new(); orders.len()],
            rust: vec![Vec::new(); orders.len()],
        };
        for _ in 0..rounds {
            lap(&mut laps.ours, orders, |order| _ = black_box(order.ours()));
            lap(&mut laps.checks, orders, |order| {
                _ = black_box(order.checks())
            });
            lap(&mut laps.rust, orders, |order| _ = black_box(order.rust()));
        }
        laps.sort();
        laps
    }

    fn sort(&mut self) {
        for laps in [&mut self.ours, &mut self.checks, &mut self.rust] {
            laps.iter_mut()
                .for_each(|laps| laps.sort_by(f64::total_cmp));
        }
    }

    /// Seconds for a call, on average over some of the orders: first of the shortest lap of each,
    /// then of the next. So what disturbs one order's lap counts at that order alone.
    fn times(&self, orders: &[Order], is_counted: impl Fn(&Order) -> bool) -> Times {
        let means = |all: &[Vec<f64>]| {
            let counted = |(_, order): &(&Vec<f64>, &Order)| is_counted(order);
            let of_some: Vec<_> = all.iter().zip(orders).filter(counted).collect();
            let sum = |at| of_some.iter().map(|(laps, _)| laps[at]).sum::<f64>();
            let rounds = 0..all[0].len();
            rounds.map(|at| sum(at) / of_some.len() as f64).collect()
        };
        Times {
            ours: means(&self.ours),
            checks: means(&self.checks),
            rust: means(&self.rust),
            sum: Vec::new(),
        }
    }
}

/// A call of each order in turn, its time behind the others of that order.
fn lap(all: &mut [Vec<f64>], orders: &mut [Order], call: impl FnMut(&mut Order)) {
    let taken = laps(orders, call);
    for (laps, seconds) in all.iter_mut().zip(taken) {
        laps.push(seconds);
    }
}
