//! `start` of 01: the parameters' values, judged, and a store that holds them.

use super::expression::value;
use super::values::{has, Store, UNDEFINED};
use super::write;
use crate::image::Image;
use crate::reading::{Document01, Reading};
use crate::valid::{with_rows, Refusal};

/// 01's start: 0, or number and place of a refusal.
pub fn start(image: &[u8], params: &[u8], store: &mut [u8]) -> u64 {
    start_by::<Document01>(image, params, store)
}

/// `start` under a reading of the rules.
pub fn start_by<R: Reading>(image: &[u8], params: &[u8], store: &mut [u8]) -> u64 {
    let slots = store.as_chunks_mut::<4>().0;
    let params = params.as_chunks::<4>().0;
    let started = with_rows(|rows| {
        let image = rows.judge::<R>(image, &mut ())?;
        first_store::<R>(&image, params, slots.len())
    });
    match started {
        Err(refusal) => refusal.word(),
        Ok(values) => {
            write(slots, &values);
            0
        }
    }
}

/// 13 to 16 in this order; then the store: parameters, and nothing else defined.
fn first_store<R: Reading>(
    image: &Image,
    params: &[[u8; 4]],
    slots: usize,
) -> Result<Store, Refusal> {
    if slots != image.variables.len() {
        return Err(Refusal::new(13, 0));
    }
    if params.len() != image.parameters.count_ones() as usize {
        return Err(Refusal::new(14, 0));
    }
    let mut store = [UNDEFINED; 64];
    let mut left = image.parameters;
    for param in params {
        let v = left.trailing_zeros() as usize;
        left &= left - 1;
        store[v] = i32::from_le_bytes(*param);
        if !has(image, image.type_of(v as u16), store[v]) {
            return Err(Refusal::new(15, v));
        }
    }
    // The condition reads parameters only (01, "Binding"): it is never undefined.
    match value::<R>(image.rows, &store, image.condition) {
        Some(1) => Ok(store),
        _ => Err(Refusal::new(16, 0)),
    }
}
