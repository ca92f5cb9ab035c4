//! Start and step: the table writer to its end, loops, short steps and deep nests.

use super::{cell, loops, measure, short};
use crate::calls::{Calls, LIBRARY, RUST};
use crate::image::{limits, table_writer};
use crate::nests;
use std::hint::black_box;

/// A step that moves.
pub struct Subject {
    name: String,
    rows: usize,
    image: Vec<u8>,
    state: u32,
    store: Vec<u8>,
    script: Vec<u8>,
    units: u64,
}

impl Subject {
    pub fn new(name: &str, image: Vec<u8>, state: u32, store: Vec<u8>, script: Vec<u8>) -> Subject {
        let (name, rows) = (name.to_string(), super::checks::rows_of(&image));
        let mut subject = Subject { name, rows, image, state, store, script, units: 0 };
        subject.units = subject.step(RUST) >> 16 & 0xFF_FFFF;
        subject
    }

    fn run(&self, calls: Calls) {
        black_box(self.step(calls));
    }

    fn step(&self, calls: Calls) -> u64 {
        let (mut room, mut label) = ([0; 256], [0; 40]);
        let store = &mut room[..self.store.len()];
        store.copy_from_slice(&self.store);
        let image = black_box(&self.image);
        let budget = limits::BUDGET;
        let answer = (calls.step)(image, self.state, store, &self.script, budget, &mut label);
        assert_eq!(answer & 0xFF, 0, "{}: only steps that move are measured", self.name);
        answer
    }
}

/// Start and all 130 steps of the table writer, to its 21.
fn write_table(image: &[u8], calls: Calls) {
    let mut store = [0; 8];
    let mut label = [0; 40];
    assert_eq!((calls.start)(image, &7i32.to_le_bytes(), &mut store), 0, "it starts");
    let (mut state, mut moves) = (0, 0);
    loop {
        let image = black_box(image);
        let answer = (calls.step)(image, state, &mut store, &[], limits::BUDGET, &mut label);
        if answer & 0xFF != 0 {
            assert_eq!((answer, moves), (21 | 30 << 16, 130), "it ends after 130 moves");
            return;
        }
        state = (answer >> 8 & 0xFF) as u32;
        moves += 1;
    }
}

fn start_nest(image: &[u8], calls: Calls) {
    let answer = (calls.start)(black_box(image), &[], &mut [0; 256]);
    assert_eq!(answer, 0, "only starts that succeed are measured");
}

/// One line of the table: what `call` does, by both sides.
fn line(name: &str, rows: usize, units: u64, rounds: usize, call: &dyn Fn(Calls)) {
    let library = LIBRARY.map(|calls| move || call(calls));
    let library = library.as_ref().map(|run| run as &dyn Fn());
    let times = measure(rounds, library, &|| call(RUST));
    let per_unit = times.rust / units.max(1) as f64;
    println!(
        "| {name} | {rows} | {units} | {} | {:.0} | {per_unit:.1} | {} |",
        cell(times.library, 0),
        times.rust,
        cell(times.ratio, 2)
    );
}

pub fn run(rounds: usize) {
    println!("| call | rows | units | library ns | Rust ns | Rust ns per unit | library / Rust |");
    println!("|---|---:|---:|---:|---:|---:|---:|");
    let writer = table_writer();
    let (image, rows) = (writer.bytes(), writer.rows.len());
    // 3 units, 128 times 6, 4, and the refused one's 1.
    let units = 3 + 128 * 6 + 4 + 1;
    line("table writer, start to end", rows, units, rounds, &|calls| write_table(&image, calls));
    for subject in loops::subjects().into_iter().chain(short::subjects()) {
        let Subject { name, rows, units, .. } = &subject;
        line(name, *rows, *units, rounds, &|calls| subject.run(calls));
    }
    for nest in nests::all() {
        let name = format!("deep: {}", nest.name);
        if nest.name == nests::CONDITION {
            let start = |calls| start_nest(&nest.image, calls);
            line(&format!("{name}, start"), nest.rows, 0, rounds, &start);
        }
        let subject = Subject::new(&name, nest.image, 0, vec![0; 256], nest.script);
        line(&name, subject.rows, subject.units, rounds, &|calls| subject.run(calls));
    }
}
