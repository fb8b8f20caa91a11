//! What is to be reached, as a part of the time of the Rust and of a plain read.

/// The most that a call and its walk may take of the Rust's time, orders in turn.
#[derive(Clone, Copy, Default)]
pub struct Targets {
    pub total: Option<f64>,
    pub walk: Option<f64>,
}

/// Where 512 words are lent the checks are looked at, which are so long that the walk is lost in
/// them; rare AND common has none for its total yet: the check of the common word's run takes
/// longer than the whole order takes the Rust.
pub fn of(name: &str) -> Targets {
    let (total, walk) = match name {
        "sheet" => (Some(0.5), None),
        "typed together" => (Some(0.6), None),
        name if name.starts_with("typed ") => (Some(0.8), None),
        "rare AND common" => (None, Some(0.25)),
        "disjunction of 8" | "3 of 8" => (Some(0.3), Some(0.3)),
        "deep tree" => (Some(0.4), Some(0.4)),
        "buyer's order" | "range, exclusion" => (Some(0.7), Some(0.5)),
        "512 words lent" => (None, None),
        _ => (Some(0.6), Some(0.5)),
    };
    Targets { total, walk }
}

/// The most that the checks may take of a plain read of the same words.
pub fn of_checks(name: &str, n: u32) -> f64 {
    match name {
        "512 words lent" if n == 1_000_000 => 1.4,
        _ => 3.0,
    }
}

/// A target as it is printed beside what was reached.
pub fn beside(reached: f64, target: Option<f64>) -> String {
    match target {
        Some(target) if reached > target => format!("{target} missed"),
        Some(target) => target.to_string(),
        None => "-".into(),
    }
}
