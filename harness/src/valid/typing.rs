//! Refusal 8: typing (report, A.2; 01, "Typing"), rows from the lowest.

use super::Refusal;
use crate::image::{Image, Row, NONE};

const BOOL: u8 = 0;
const INT: u8 = 1;
/// The type of rows that have none, and of lists that are right.
const RIGHT: u8 = 0x80;
/// The mark of a list that its owner refuses.
const MIXED: u8 = 0x81;

/// The types of the rows so far, and the lowest row whose rule fails.
#[derive(Default)]
pub struct Types {
    types: Vec<u8>,
    failing: Option<usize>,
}

impl Types {
    pub fn clear(&mut self, rows: usize) {
        self.types.clear();
        self.types.reserve(rows);
        self.failing = None;
    }

    pub fn add(&mut self, image: &Image, row: Row) {
        let r = self.types.len();
        let found = type_of(image, &self.types, row);
        // The trailer's condition is judged at its own row.
        let condition = r == usize::from(image.condition) && found != Some(BOOL);
        if (found.is_none() || condition) && self.failing.is_none() {
            self.failing = Some(r);
        }
        self.types.push(found.unwrap_or(MIXED));
    }

    /// The type of an expression or pattern judged before.
    pub fn of(&self, row: u16) -> u16 {
        self.types[usize::from(row)].into()
    }

    pub fn judge(&self) -> Result<(), Refusal> {
        self.failing.map_or(Ok(()), |r| Err(Refusal::new(8, r)))
    }
}

/// The row's type, or none if the rule that belongs to this row fails.
fn type_of(image: &Image, types: &[u8], Row { code, a, b, c }: Row) -> Option<u8> {
    let at = |row: u16| types[usize::from(row)];
    let variable = |v: u16| image.type_of(v) as u8;
    let both = |kind: u8| at(a) == kind && at(b) == kind;
    // A list keeps the mark of a fault further on; its owner judges it.
    let list = |right: bool, next: u16| match right && (next == NONE || at(next) == RIGHT) {
        true => RIGHT,
        false => MIXED,
    };
    match code {
        1 | 33 => Some(variable(a)),
        2 | 32 | 34 => Some(a as u8),
        16 => (at(a) == BOOL).then_some(BOOL),
        17 | 18 => both(BOOL).then_some(BOOL),
        19 => (at(a) == INT).then_some(INT),
        20..=24 => both(INT).then_some(INT),
        25 => (at(a) == at(b)).then_some(BOOL),
        26 | 27 => both(INT).then_some(BOOL),
        35 => (at(b) == BOOL).then_some(at(a)),
        44 => Some(list(at(b) == variable(a), c)),
        45 => Some(list(b == image.type_of(a), c)),
        47 => Some(list(variable(a) == INT, NONE)),
        49 | 60 => (at(a) == RIGHT).then_some(RIGHT),
        50 => (at(a) == RIGHT && (b == NONE || at(b) == BOOL)).then_some(RIGHT),
        // The τ gate has no offers.
        52 => (a != 0 || b == NONE).then_some(RIGHT),
        56 => (b == NONE || at(b) == at(a)).then_some(RIGHT),
        // Arms have their patterns' one type.
        58 => Some(if c == NONE || at(c) == at(a) { at(a) } else { MIXED }),
        59 => (at(a) == BOOL).then_some(RIGHT),
        _ => Some(RIGHT),
    }
}
