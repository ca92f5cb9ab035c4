//! Expressions (report, B.1; 01, "Values").

use super::values::{binary, literal, wrap, Store, UNDEFINED};
use crate::image::Row;
use crate::reading::Reading;

/// The expression's value; none if it reads an undefined variable.
#[inline]
pub fn value<R: Reading>(rows: &[[u8; 8]], store: &Store, row: u16) -> Option<i32> {
    let row = Row::from_bytes(rows[usize::from(row)]);
    // Leaves are read here, so that only operators are calls.
    match row.code {
        1 => defined(store, row.a),
        2 => Some(literal(row.b)),
        _ => applied::<R>(rows, store, row),
    }
}

/// The value of an operator's row.
fn applied<R: Reading>(rows: &[[u8; 8]], store: &Store, row: Row) -> Option<i32> {
    let Row { code, a, b, .. } = row;
    let left = value::<R>(rows, store, a)?;
    match code {
        16 => return Some(left ^ 1),
        19 => return Some(wrap(-left)),
        17 if R::OPERANDS_AS_NEEDED && left == 0 => return Some(0),
        18 if R::OPERANDS_AS_NEEDED && left == 1 => return Some(1),
        _ => {}
    }
    // And, or evaluate both operands.
    let right = value::<R>(rows, store, b)?;
    Some(binary::<R>(code, left, right))
}

fn defined(store: &Store, variable: u16) -> Option<i32> {
    // Masked, since form has seen that the variable exists: no bounds check is left.
    let slot = store[usize::from(variable & 63)];
    (slot != UNDEFINED).then_some(slot)
}
