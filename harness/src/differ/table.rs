//! What start and step answered in a run, and what a full run must have met.

use super::sets::Tally;
use std::fmt::Write;

/// Cases from which on every number of start and step must have occurred.
pub const FULL_RUNS: u64 = 100_000;
/// The numbers of 01's table, and 0 for success.
const NUMBERS: usize = 28;
/// 01, "Numbers given instead": start gives 1–9 and 13–16, step 1–9, 13 and 17–27.
const START: u32 = 0b1_1110_0011_1111_1111;
const STEP: u32 = 0b1111_1111_1110_0010_0011_1111_1111;
/// Check gives 1–12.
const CHECK: u32 = 0b1_1111_1111_1111;

/// Answers by call and number, and how far chains went.
#[derive(Default)]
pub struct RunTally {
    pub cases: u64,
    pub start: [u64; NUMBERS],
    pub step: [u64; NUMBERS],
    pub chains: u64,
    /// Moves in chains, and the most in one.
    pub moves: u64,
    pub longest: u64,
}

/// One more answer of a call.
pub fn count(counts: &mut [u64; NUMBERS], answer: u64) {
    if let Some(count) = counts.get_mut((answer & 0xFF) as usize) {
        *count += 1;
    }
}

impl RunTally {
    pub fn calls(&self) -> u64 {
        self.start.iter().chain(&self.step).sum()
    }

    /// What a full run lacks: a run that met too little shows nothing.
    pub fn lacks(&self) -> Vec<String> {
        if self.cases < FULL_RUNS {
            return Vec::new();
        }
        let start = missing("start", START, &self.start);
        let mut lacks: Vec<String> = start.chain(missing("step", STEP, &self.step)).collect();
        if self.longest < 50 {
            lacks.push("no chain of an accepted image had 50 moves".to_string());
        }
        lacks
    }

    /// Answers of all three calls by number.
    pub fn table(&self, check: &Tally) -> String {
        let mut text = "| number | check | start | step |\n|---|---:|---:|---:|\n".to_string();
        let cell = |wanted: u32, n: usize, count: Option<&u64>| match wanted >> n & 1 {
            0 => String::new(),
            _ => count.copied().unwrap_or_default().to_string(),
        };
        for n in 0..NUMBERS {
            let name = if n == 0 { "success".to_string() } else { n.to_string() };
            let check = cell(CHECK, n, check.answers.get(n));
            let start = cell(START, n, self.start.get(n));
            let step = cell(STEP, n, self.step.get(n));
            let _ = writeln!(text, "| {name} | {check} | {start} | {step} |");
        }
        let _ = writeln!(
            text,
            "\n{} calls of start and step; {} chains, {} moves in them, at most {} in one",
            self.calls(),
            self.chains,
            self.moves,
            self.longest
        );
        text
    }
}

/// The numbers that a call can give and never gave.
fn missing<'a>(call: &'a str, wanted: u32, counts: &'a [u64]) -> impl Iterator<Item = String> + 'a {
    let absent = counts.iter().enumerate().filter(move |(n, &c)| wanted >> n & 1 != 0 && c == 0);
    absent.map(move |(n, _)| format!("{call} never gave {n}"))
}
