//! Values (01, "Values"): ranges of types, arithmetic that wraps, and undefined slots.

use crate::image::Image;
use crate::reading::Reading;

/// A slot that holds this is undefined; no value is.
pub const UNDEFINED: i32 = 65_536;
/// The type that is wider than its number of values tells.
pub const INT: u16 = 1;

/// The variables' slots; those past the image's variables are unused.
pub type Store = [i32; 64];

/// The lowest and the highest value of a type.
pub fn range(image: &Image, kind: u16) -> (i32, i32) {
    match kind {
        INT => (i32::from(i16::MIN), i32::from(i16::MAX)),
        _ => (0, i32::from(image.values(kind)) - 1),
    }
}

/// Whether the type has this value.
pub fn has(image: &Image, kind: u16, value: i32) -> bool {
    let (low, high) = range(image, kind);
    (low..=high).contains(&value)
}

/// A literal or constant as a value: two's complement, other types stay under 4,096.
pub fn literal(field: u16) -> i32 {
    i32::from(field as i16)
}

/// Into −32,768..32,767.
pub fn wrap(number: i32) -> i32 {
    i32::from(number as i16)
}

/// What a code from 17 to 27, but 19, makes of two operands.
#[inline]
pub fn binary<R: Reading>(code: u16, left: i32, right: i32) -> i32 {
    match code {
        17 => left & right,
        18 => left | right,
        20 => wrap(left + right),
        21 => wrap(left - right),
        22 => wrap(left * right),
        23 => quotient::<R>(left, right),
        24 => remainder::<R>(left, right),
        25 => i32::from(left == right),
        26 => i32::from(left < right),
        _ => i32::from(left <= right),
    }
}

/// Rounded toward zero; by 0 it is 0; −32,768 by −1 wraps.
fn quotient<R: Reading>(left: i32, right: i32) -> i32 {
    match right {
        0 => 0,
        _ if R::QUOTIENT_ROUNDS_DOWN => wrap(left.div_euclid(right)),
        _ => wrap(left / right),
    }
}

/// Of the dividend's sign; by 0 it is the dividend.
fn remainder<R: Reading>(left: i32, right: i32) -> i32 {
    match right {
        0 if R::REMAINDER_BY_0_IS_0 => 0,
        0 => left,
        _ => left % right,
    }
}
