//! Every byte of an image set to every value, and every field to each extreme.

use harness::calls::{LIBRARY, RUST};
use harness::check::check;
use harness::differ::decoded;
use harness::generate::Generator;
use harness::image::{naming_fields, number, table_writer, Row, TRAILER};
use harness::library;
use harness::random::Random;

/// Both answers and both buffers are the same for one image.
fn same(image: &[u8], at: usize) {
    let mut sets = [[0x5A; 512]; 2];
    let [left, right] = &mut sets;
    let answer = check(image, left);
    let answers = [answer, library::check(image, right)].map(decoded);
    assert_eq!(answers[0], answers[1], "byte {at}: Rust, then the library; {image:02x?}");
    assert_eq!(left, right, "sets, byte {at}; {image:02x?}");
    same_runs(image, at, answer);
}

/// Start and step give check's 1–9, and with the feature `step` both sides the same.
fn same_runs(image: &[u8], at: usize, checked: u64) {
    let script = [0; 64];
    let sides = [RUST, LIBRARY.unwrap_or(RUST)];
    let started = sides.map(|side| {
        let mut store = [0x5A; 8];
        ((side.start)(image, &script[..4], &mut store), store)
    });
    let stepped = sides.map(|side| {
        let (mut store, mut label) = ([0; 8], [0x5A; 43]);
        ((side.step)(image, 1, &mut store, &script, 100, &mut label), store, label)
    });
    assert_eq!(started[0], started[1], "start, byte {at}; {image:02x?}");
    assert_eq!(stepped[0], stepped[1], "step, byte {at}; {image:02x?}");
    for answer in [started[0].0, stepped[0].0] {
        let early = |answer: u64| (1..=9).contains(&(answer & 0xFF));
        assert_eq!(early(answer), early(checked), "1 to 9, byte {at}; {image:02x?}");
        assert!(!early(answer) || answer == checked, "1 to 9, byte {at}; {image:02x?}");
    }
}

fn every_byte(image: &[u8]) {
    let mut damaged = image.to_vec();
    for at in 0..image.len() {
        for value in 0..=255 {
            damaged[at] = value;
            same(&damaged, at);
        }
        damaged[at] = image[at];
    }
}

/// Each field put to the numbers around every count, and to the row's neighbours.
fn every_extreme(image: &[u8]) {
    let mut damaged = image.to_vec();
    for at in (0..image.len() - 1).step_by(2) {
        let near = number(image, at);
        let ends = [0x7FFE, 0x7FFF, 0x8000, 0x8001, 0xFFFE, 0xFFFF, 0x0100, 4096, 4097];
        let around = (0..70).chain((0..5).map(|d| near.wrapping_add(d).wrapping_sub(2)));
        for value in around.chain(ends) {
            damaged[at..at + 2].copy_from_slice(&value.to_le_bytes());
            same(&damaged, at);
        }
        damaged[at..at + 2].copy_from_slice(&image[at..at + 2]);
    }
}

/// The first accepted images of a seed that together have every code.
fn covering() -> Vec<Vec<u8>> {
    let mut generator = Generator::default();
    let (mut image, mut codes, mut kept) = (Vec::new(), 0u64, Vec::new());
    for case in 0..20_000 {
        generator.image(&mut Random::new(11, case), &mut image);
        if image.len() > 700 || check(&image, &mut [0; 512]) != 0 {
            continue;
        }
        let more = codes_of(&image) & !codes;
        if more != 0 {
            codes |= more;
            kept.push(image.clone());
        }
    }
    assert_eq!(codes.count_ones(), 2 + 12 + 4 + 2 + 17, "every code of 01's table");
    kept
}

fn codes_of(image: &[u8]) -> u64 {
    let end = image.len() - TRAILER;
    let start = usize::from(number(image, end + 6));
    let rows = image[start..end].as_chunks::<8>().0;
    rows.iter().fold(0, |codes, row| codes | 1 << row[0])
}

#[test]
fn every_byte_of_the_table_writer() {
    every_byte(&table_writer().bytes());
    every_extreme(&table_writer().bytes());
}

#[test]
fn every_field_of_images_with_every_code() {
    covering().iter().for_each(|image| every_extreme(image));
}

#[test]
fn every_field_that_names_a_row_is_known() {
    let draft = table_writer();
    let named: usize = draft.rows.iter().map(|row| row.children().count()).sum();
    // Every row but those the three states and the trailer name.
    assert_eq!(named, draft.rows.len() - 4);
    assert_eq!(naming_fields(58), 0b111);
    assert_eq!(Row::new(58, 1, 2, 3).children().collect::<Vec<_>>(), [1, 2, 3]);
}
