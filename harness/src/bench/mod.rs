//! Times of both sides in rounds that take turns, as tables in markdown.

mod checks;
mod loops;
mod short;
mod steps;

use std::time::{Duration, Instant};

/// How long one measurement lasts, about.
const TURN: Duration = Duration::from_millis(2);

/// Medians over the rounds, in nanoseconds; the library's where it is linked.
struct Times {
    library: Option<f64>,
    rust: f64,
    ratio: Option<f64>,
}

/// Measures all subjects and prints the tables.
pub fn run(rounds: usize) {
    checks::run(rounds);
    println!();
    steps::run(rounds);
}

/// Both sides in turn; the ratio is the median of the rounds' ratios.
fn measure(rounds: usize, library: Option<&dyn Fn()>, rust: &dyn Fn()) -> Times {
    let calls = [library.map_or(1, repeats), repeats(rust)];
    let mut times = [Vec::new(), Vec::new()];
    let mut ratios = Vec::new();
    for _ in 0..rounds {
        let own = time(rust, calls[1]);
        times[1].push(own);
        if let Some(library) = library {
            let other = time(library, calls[0]);
            times[0].push(other);
            ratios.push(other / own);
        }
    }
    let [other, own] = times.map(median);
    Times { library: other, rust: own.unwrap_or_default(), ratio: median(ratios) }
}

/// Calls that fill one turn; measuring them also warms the caches up.
fn repeats(call: &dyn Fn()) -> u32 {
    let mut calls = 1;
    while time(call, calls) * f64::from(calls) < TURN.as_nanos() as f64 {
        calls *= 2;
    }
    calls
}

/// Nanoseconds of one call.
fn time(call: &dyn Fn(), calls: u32) -> f64 {
    let start = Instant::now();
    (0..calls).for_each(|_| call());
    start.elapsed().as_nanos() as f64 / f64::from(calls)
}

fn median(mut values: Vec<f64>) -> Option<f64> {
    values.sort_by(f64::total_cmp);
    values.get(values.len() / 2).copied()
}

/// A number in a cell, or a dash where the library isn't linked.
fn cell(number: Option<f64>, digits: usize) -> String {
    number.map_or("-".to_string(), |number| format!("{number:.digits$}"))
}
