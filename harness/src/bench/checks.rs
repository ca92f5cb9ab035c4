//! Check on accepted images.

use super::{cell, measure};
use crate::generate::{Generator, Lean, Plan};
use crate::image::{number, table_writer, TRAILER};
use crate::random::Random;
use crate::{check, library};

use std::hint::black_box;

type Check = fn(&[u8], &mut [u8]) -> u64;

/// The rows of the generated images.
const SIZES: [usize; 5] = [128, 256, 512, 1024, 2048];
/// Shapes: a name, the number of states, and which rows there are more of.
const SHAPES: [(&str, usize, Lean); 3] = [
    ("sequences and cases", 24, Lean::Sequences),
    ("states and jumps", 64, Lean::Jumps),
    ("expressions", 6, Lean::Expressions),
];
/// An image to measure with.
struct Subject {
    name: &'static str,
    rows: usize,
    image: Vec<u8>,
}

/// Measures all subjects and prints a table in markdown.
pub fn run(rounds: usize) {
    println!("| image | rows | library ns | Rust ns | library ns per row | library / Rust |");
    println!("|---|---:|---:|---:|---:|---:|");
    for subject in subjects() {
        let image = &subject.image;
        let library = || judge(image, library::check);
        let times = measure(rounds, Some(&library), &|| judge(image, check::check));
        let per_row = times.library.map(|time| time / subject.rows as f64);
        println!(
            "| {} | {} | {} | {:.0} | {} | {} |",
            subject.name,
            subject.rows,
            cell(times.library, 0),
            times.rust,
            cell(per_row, 1),
            cell(times.ratio, 2)
        );
    }
}

fn subjects() -> Vec<Subject> {
    let writer = table_writer();
    let rows = writer.rows.len();
    let mut subjects = vec![Subject { name: "table writer", rows, image: writer.bytes() }];
    for rows in SIZES {
        for (name, states, lean) in SHAPES {
            let image = accepted(rows, states, lean);
            subjects.push(Subject { name, rows, image });
        }
    }
    subjects.extend([512, 2048].map(ring));
    subjects
}

/// The ring of states whose sets settle last, for what the rounds cost.
fn ring(rows: usize) -> Subject {
    let mut image = Vec::new();
    Generator::default().slow(&mut Random::new(7, 0), rows, &mut image);
    Subject { name: "falling ring", rows, image }
}

/// An accepted image of exactly these rows: plans overshoot, so they aim lower
/// until padding makes up what lacks.
pub fn accepted(rows: usize, states: usize, lean: Lean) -> Vec<u8> {
    let states = states.min(rows / 6);
    let mut plan = Plan { rows, types: 5, variables: 16, states, gates: 6, lean, slips: [None; 2] };
    let mut generator = Generator::default();
    let mut image = Vec::new();
    for case in 0..1000 {
        let mut random = Random::new(7, case);
        generator.exact(&mut random, plan, rows, &mut image);
        if check::check(&image, &mut [0; 512]) == 0 && rows_of(&image) == rows {
            return image;
        }
        plan.rows = (plan.rows * 19 / 20).max(rows / 8);
    }
    panic!("no accepted image of {rows} rows and {states} states was made");
}

pub fn rows_of(image: &[u8]) -> usize {
    let end = image.len() - TRAILER;
    (end - usize::from(number(image, end + 6))) / 8
}

fn judge(image: &[u8], check: Check) {
    let mut sets = [0; 512];
    let answer = check(black_box(image), black_box(&mut sets));
    assert_eq!(black_box(answer), 0, "only accepted images are measured");
}
