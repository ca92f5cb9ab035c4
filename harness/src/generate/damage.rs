//! Damage to bytes, and bytes that never were an image.

use crate::image::{limits, MARK, TRAILER};
use crate::random::Random;

/// One to three damages to an image's bytes.
pub fn damage(bytes: &mut Vec<u8>, random: &mut Random) {
    for _ in 0..random.within(1, 3) {
        damage_once(bytes, random);
    }
    // Often the frame is mended, so that the damage is met further on.
    if random.one_in(2) {
        frame(bytes);
    }
}

fn damage_once(bytes: &mut Vec<u8>, random: &mut Random) {
    let length = bytes.len();
    let at = random.below(length.saturating_sub(1));
    match random.below(8) {
        _ if length < TRAILER => bytes.extend([0; TRAILER]),
        0 => bytes[at] ^= 1 << random.below(8),
        1 => bytes[at] = random.word() as u8,
        2 | 3 => put(bytes, at & !1, random.pick(&[0, 1, 0xFFFF, 0x7FFF, 0x8000, 2, 53])),
        4 => bytes.truncate(length - random.within(1, 9)),
        5 => bytes.resize(length + random.within(1, 9), random.word() as u8),
        6 => {
            let field = length - TRAILER + 2 * random.below(7);
            let old = i32::from(bytes[field]) + random.pick(&[-8, -4, -2, -1, 1, 2, 4, 8]);
            bytes[field] = old as u8;
        }
        _ => {
            let field = length - TRAILER + 2 * random.below(8);
            put(bytes, field, random.word() as u16);
        }
    }
}

fn put(bytes: &mut [u8], at: usize, value: u16) {
    bytes[at..at + 2].copy_from_slice(&value.to_le_bytes());
}

/// Writes the mark and the true length.
pub fn frame(bytes: &mut [u8]) {
    let length = bytes.len();
    if length >= 4 {
        put(bytes, length - 4, length as u16);
        bytes[length - 2..].copy_from_slice(&MARK);
    }
}

/// Random bytes of any length, mostly with a right frame.
pub fn noise(bytes: &mut Vec<u8>, random: &mut Random) {
    let longest = *limits::IMAGE.end();
    let length = match random.below(40) {
        0 => random.within(longest - 9, longest + 9),
        1..=9 => random.below(60),
        _ => random.within(38, 200),
    };
    bytes.clear();
    bytes.resize(length, 0);
    random.fill(bytes);
    if !random.one_in(8) {
        frame(bytes);
    }
}

/// Rows of random codes and low fields under right tables.
pub fn soup(bytes: &mut Vec<u8>, random: &mut Random) {
    let rows = random.within(2, 12);
    bytes.clear();
    bytes.extend([2, 0, 0, 0, 1, 0, 1, 0, 0, 0, 0, 0]);
    let state = random.below(rows) as u8;
    bytes.extend([state, 0]);
    for r in 0..rows {
        let code = random.pick(&[1, 2, 16, 25, 32, 33, 48, 52, 53, 54, 55, 56, 59]);
        bytes.extend([code, 0]);
        for _ in 0..3 {
            let low = random.below(r + 1) as u8;
            let field = random.pick(&[[0, 0], [0, 0], [low, 0], [0xFF, 0xFF]]);
            bytes.extend(field);
        }
    }
    let condition = random.below(rows) as u8;
    bytes.extend([0, 0, 4, 0, 12, 0, 14, 0, 2, 0, condition, 0, 0, 0, 0, 0]);
    frame(bytes);
}
