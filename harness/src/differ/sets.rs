//! Two checkers on the same images: the answers and every lent byte are compared.

use super::report::{decoded, hex, save};
use crate::generate::{depth, Generator};
use crate::image::{number, Row, TRAILER};
use crate::random::Random;
use std::fmt;

/// Cases from which on every answer must have occurred.
pub const FULL: u64 = 20_000;
/// Most bytes of a sets buffer that are tried: some entries too many and a part word.
const ROOM: usize = (64 + 3) * 8 + 7;
/// Depth that some accepted image of a full run must have.
const DEEP: usize = 1_900;
/// Rows that some accepted image of a full run must have.
const LARGE: usize = 2_048;

/// What one case gave twice, and not the same.
pub struct Difference {
    pub case: u64,
    pub answers: [u64; 2],
    pub image: Vec<u8>,
    pub old: Vec<u8>,
    pub sets: [Vec<u8>; 2],
    pub image_changed: bool,
}

/// What occurred in a run.
#[derive(Default)]
pub struct Tally {
    pub cases: u64,
    /// Accepted at 0, then the refusals by number.
    pub answers: [u64; 13],
    pub largest: usize,
    pub deepest: usize,
    /// Codes of rows in accepted images.
    pub codes: u64,
}

impl Tally {
    fn count(&mut self, answer: u64, image: &[u8]) {
        self.cases += 1;
        if let Some(count) = self.answers.get_mut((answer & 0xFF) as usize) {
            *count += 1;
        }
        if answer == 0 {
            self.measure(image);
        }
    }

    fn measure(&mut self, image: &[u8]) {
        let end = image.len() - TRAILER;
        let start = usize::from(number(image, end + 6));
        let chunks = image[start..end].as_chunks().0.iter();
        let count = (end - start) / 8;
        self.largest = self.largest.max(count);
        chunks.clone().for_each(|row: &[u8; 8]| self.codes |= 1 << (row[0] & 63));
        if count > self.deepest {
            let rows: Vec<Row> = chunks.map(|&row| Row::from_bytes(row)).collect();
            self.deepest = self.deepest.max(depth(&rows));
        }
    }

    /// What a full run lacks: a run that met too little shows nothing.
    pub fn lacks(&self) -> Vec<String> {
        let mut lacks = Vec::new();
        if self.cases < FULL {
            return lacks;
        }
        for (answer, &count) in self.answers.iter().enumerate() {
            if count == 0 {
                lacks.push(format!("no case was {}", name(answer as u64)));
            }
        }
        if self.largest < LARGE {
            lacks.push(format!("no accepted image had {LARGE} rows"));
        }
        if self.deepest < DEEP {
            lacks.push(format!("no accepted image was {DEEP} rows deep"));
        }
        lacks
    }
}

impl fmt::Display for Tally {
    fn fmt(&self, f: &mut fmt::Formatter) -> fmt::Result {
        writeln!(f, "| answer | cases | share |\n|---|---:|---:|")?;
        for (answer, &count) in self.answers.iter().enumerate() {
            let share = 100.0 * count as f64 / self.cases.max(1) as f64;
            writeln!(f, "| {} | {count} | {share:.2} % |", name(answer as u64))?;
        }
        writeln!(f, "\nof the accepted: at most {} rows, depth {}", self.largest, self.deepest)
    }
}

fn name(answer: u64) -> String {
    match answer {
        0 => "accepted".to_string(),
        number => number.to_string(),
    }
}

/// The number of states that an image's trailer tells of, right or not.
pub fn states(image: &[u8]) -> usize {
    let Some(trailer) = image.len().checked_sub(TRAILER) else {
        return 0;
    };
    let size = number(image, trailer + 6).wrapping_sub(number(image, trailer + 4));
    usize::from(size / 2)
}

/// Room for one case, used again.
struct Case {
    image: Vec<u8>,
    kept: Vec<u8>,
    old: [u8; ROOM],
    sets: [[u8; ROOM]; 2],
    length: usize,
}

impl Case {
    fn new() -> Case {
        Case {
            image: Vec::new(),
            kept: Vec::new(),
            old: [0; ROOM],
            sets: [[0; ROOM]; 2],
            length: 0,
        }
    }

    /// Lengths mostly around what the image needs, with part words.
    fn fill_sets(&mut self, random: &mut Random) {
        let whole = states(&self.image).min(64);
        self.length = match random.below(16) {
            0 => random.below(ROOM + 1),
            1 => (8 * whole).saturating_sub(random.within(1, 9)),
            2..=7 => 8 * whole,
            _ => 8 * (whole + random.below(4)) + random.below(8),
        };
        random.fill(&mut self.old[..self.length]);
        self.sets = [self.old; 2];
        self.kept.clone_from(&self.image);
    }

    fn difference(&self, case: u64, answers: [u64; 2]) -> Option<Difference> {
        let sets = [&self.sets[0][..self.length], &self.sets[1][..self.length]];
        let image_changed = self.image != self.kept;
        if answers[0] == answers[1] && sets[0] == sets[1] && !image_changed {
            return None;
        }
        Some(Difference {
            case,
            answers,
            image: self.kept.clone(),
            old: self.old[..self.length].to_vec(),
            sets: sets.map(<[u8]>::to_vec),
            image_changed,
        })
    }
}

/// Runs the cases `first..first + cases` of a seed; stops at the first difference.
pub fn compare(
    seed: u64,
    first: u64,
    cases: u64,
    one: impl Fn(&[u8], &mut [u8]) -> u64,
    other: impl Fn(&[u8], &mut [u8]) -> u64,
) -> Result<Tally, Box<Difference>> {
    let mut generator = Generator::default();
    let mut tally = Tally::default();
    let mut case = Case::new();
    for n in first..first + cases {
        let mut random = Random::new(seed, n);
        generator.image(&mut random, &mut case.image);
        case.fill_sets(&mut random);
        let [left, right] = &mut case.sets;
        let answers = [
            one(&case.image, &mut left[..case.length]),
            other(&case.kept, &mut right[..case.length]),
        ];
        if let Some(difference) = case.difference(n, answers) {
            return Err(Box::new(difference));
        }
        tally.count(answers[0], &case.kept);
    }
    Ok(tally)
}

impl Difference {
    pub fn report(&self, seed: u64) -> String {
        let path = save(&self.image, seed, self.case);
        let sets = [&self.old, &self.sets[0], &self.sets[1]].map(|bytes| hex(bytes));
        format!(
            "DIFFERENCE at seed {seed}, case {}\nlibrary: {}\nRust: {}\nimage changed: {}\n\
             image ({} bytes): {path}\nsets before:\n{}sets by the library:\n{}sets by Rust:\n{}",
            self.case,
            decoded(self.answers[0]),
            decoded(self.answers[1]),
            self.image_changed,
            self.image.len(),
            sets[0],
            sets[1],
            sets[2],
        )
    }
}
