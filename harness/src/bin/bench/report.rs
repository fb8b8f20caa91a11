//! The tables that are printed.
use crate::sheet;
use crate::targets::{self, Targets};
use crate::timing::{Order, Times, least, median};
use harness::lots::{WORKLOADS, Workload};

/// What a workload took at one size.
pub struct Row {
    name: &'static str,
    n: u32,
    bytes: usize,
    in_turn: Times,
    repeated: Times,
}

/// Orders of a typed shape, whose words differ in frequency: so it takes more of them.
const TYPED: u64 = 20;

/// Runs the workloads and sheets that are named so over so many lots: so many orders of each
/// workload, so many rounds.
pub fn run(n: u32, words: &str, orders: u64, rounds: usize) -> Vec<Row> {
    let exact = all_names().any(|name| name == words);
    let is_named = |name: &str| match exact {
        true => name == words,
        false => name.contains(words),
    };
    println!("\n{n} lots, medians of {rounds} rounds (least), times in µs for one call");
    println!("{orders} orders of each kind in turn, of what is typed {TYPED}");
    println!("walk = total - checks; targets: at most so much of the Rust's time, in turn\n");
    header();
    let named = WORKLOADS.iter().filter(|workload| is_named(workload.name));
    let number = |workload: &Workload| if workload.is_typed() { TYPED } else { orders };
    let rows: Vec<_> = named
        .map(|workload| row(workload, n, number(workload), rounds))
        .collect();
    sheet::run(n, rounds, is_named);
    if !rows.is_empty() {
        checks(&rows);
    }
    rows
}

/// What can be asked for by name.
fn all_names() -> impl Iterator<Item = &'static str> {
    let workloads = WORKLOADS.iter().map(|workload| workload.name);
    workloads.chain(sheet::NAMES)
}

fn header() {
    println!(
        "{:20} {:8} {:>19} {:>19} {:>19} {:>19} {:>13} {:10} {:>13} {:10}",
        "workload",
        "orders",
        "total",
        "checks",
        "walk",
        "Rust",
        "total ÷ Rust",
        "target",
        "walk ÷ Rust",
        "target"
    );
}

fn row(workload: &'static Workload, n: u32, orders: u64, rounds: usize) -> Row {
    let order = |seed| Order::alone(workload, n, seed);
    let mut orders: Vec<_> = (0..orders).map(order).collect();
    orders.iter_mut().for_each(Order::agrees);
    let mut row = Row {
        name: workload.name,
        n,
        bytes: orders.iter().map(Order::bytes).sum::<usize>() / orders.len(),
        in_turn: Times::default(),
        repeated: Times::default(),
    };
    for _ in 0..rounds {
        row.in_turn.add(&mut orders, false);
        row.repeated.add(&mut orders, true);
    }
    print(row.name, "in turn", &row.in_turn, targets::of(row.name));
    print(row.name, "repeated", &row.repeated, Targets::default());
    row
}

/// A line of the first table. two_versions.sh reads its times by where they stand.
pub fn print(name: &str, orders: &str, times: &Times, targets: Targets) {
    let pair = |median: f64, least: f64| format!("{:.1} ({:.1})", median * 1e6, least * 1e6);
    let both = |times: &[f64]| pair(median(times), least(times));
    let walk = times.walk();
    let least_walk = least(&times.ours) - least(&times.checks);
    let (rust, least_rust) = (median(&times.rust), least(&times.rust));
    let total_part = median(&times.ours) / rust;
    let walk_part = median(&walk) / rust;
    println!(
        "{name:20} {orders:8} {:>19} {:>19} {:>19} {:>19} {:>13} {:10} {:>13} {:10}",
        both(&times.ours),
        both(&times.checks),
        pair(median(&walk), least_walk),
        both(&times.rust),
        format!("{total_part:.2} ({:.2})", least(&times.ours) / least_rust),
        targets::beside(total_part, targets.total),
        format!("{walk_part:.2} ({:.2})", least_walk / least_rust),
        targets::beside(walk_part, targets.walk),
    );
}

/// Time of the checks beside a plain sum of the same bytes.
fn checks(rows: &[Row]) {
    println!("\nchecks in turn, GB a second (the best in brackets), and their time beside a");
    println!("plain sum of the same words, medians; target: at most so many times\n");
    println!(
        "{:20} {:>12} {:>15} {:>15} {:>13} {:10}",
        "workload", "bytes", "checked", "summed", "checks ÷ sum", "target"
    );
    for row in rows.iter().filter(|row| row.bytes >= 4096) {
        let speed = |seconds: f64| row.bytes as f64 / seconds / 1e9;
        let times = &row.in_turn;
        let both =
            |times: &[f64]| format!("{:.2} ({:.2})", speed(median(times)), speed(least(times)));
        let part = median(&times.checks) / median(&times.sum);
        println!(
            "{:20} {:>12} {:>15} {:>15} {part:>13.2} {:10}",
            row.name,
            row.bytes,
            both(&times.checks),
            both(&times.sum),
            targets::beside(part, Some(targets::of_checks(row.name, row.n))),
        );
    }
}

/// Time for a lot at both sizes: where it is linear they are alike, but for the caches.
pub fn linear(few: &[Row], many: &[Row]) {
    println!("\nns for a lot in turn, medians: total of the library, and the Rust\n");
    println!(
        "{:20} {:>12} {:>12} {:>7} {:>12} {:>12} {:>7}",
        "workload", few[0].n, many[0].n, "times", few[0].n, many[0].n, "times"
    );
    for (few, many) in few.iter().zip(many) {
        let lot = |row: &Row, times: &[f64]| median(times) * 1e9 / f64::from(row.n);
        let ours = [lot(few, &few.in_turn.ours), lot(many, &many.in_turn.ours)];
        let rust = [lot(few, &few.in_turn.rust), lot(many, &many.in_turn.rust)];
        println!(
            "{:20} {:>12.3} {:>12.3} {:>7.2} {:>12.3} {:>12.3} {:>7.2}",
            few.name,
            ours[0],
            ours[1],
            ours[1] / ours[0],
            rust[0],
            rust[1],
            rust[1] / rust[0],
        );
    }
}
