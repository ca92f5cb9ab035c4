//! `start` and `step` of 01 on bytes, with the exports' meaning (READINGS, "Calls and
//! exports"): working copies, written back only when nothing refused.

mod actions;
mod expression;
mod run;
mod start;
mod values;
mod words;

pub use start::{start, start_by};
pub use values::{range, UNDEFINED};
pub use words::{Script, Words};

use crate::image::{limits, Image};
use crate::reading::{Document01, Reading};
use crate::valid::{with_rows, Refusal, Rows};
use run::{Label, Run};
use values::{has, Store};

/// The label's words that a step writes.
pub const LABEL: usize = 10;

/// 01's step: the move as one word, or number and place of a refusal.
pub fn step(
    image: &[u8],
    state: u32,
    store: &mut [u8],
    script: &[u8],
    budget: u32,
    label: &mut [u8],
) -> u64 {
    step_by::<Document01>(image, state, store, script, budget, label)
}

/// `step` under a reading of the rules.
pub fn step_by<R: Reading>(
    image: &[u8],
    state: u32,
    store: &mut [u8],
    script: &[u8],
    budget: u32,
    label: &mut [u8],
) -> u64 {
    let moved = with_rows(|rows| {
        let image = rows.judge::<R>(image, &mut ())?;
        step_on::<R>((&image, rows), state, store, Script::new(script), budget, label).0
    });
    moved.unwrap_or_else(Refusal::word)
}

/// `step` on an image that 1–9 don't refuse, with words from anywhere; and the units
/// charged, moved or refused.
pub fn step_on<R: Reading>(
    (image, rows): (&Image, &Rows),
    state: u32,
    store: &mut [u8],
    words: impl Words,
    budget: u32,
    label: &mut [u8],
) -> (Result<u64, Refusal>, u32) {
    let slots = store.as_chunks_mut::<4>().0;
    let label = label.as_chunks_mut::<4>().0;
    let old = match admit::<R>(image, state, slots, label.len(), budget) {
        Ok(old) => old,
        Err(refusal) => return (Err(refusal), 0),
    };
    let mut run = Run::<_, R>::new(image, rows, old, words, budget);
    let ended = run.state(state as usize);
    if ended.is_ok() {
        write(slots, &run.store);
        write_label::<R>(label, &run.label);
    }
    // Next state, units and words read, each in its bits.
    let counts = u64::from(run.units) << 16 | u64::from(run.read) << 40;
    (ended.map(|target| u64::from(target) << 8 | counts), run.units)
}

/// 17, 13, 18, 19, 20 in this order; then the store as numbers.
fn admit<R: Reading>(
    image: &Image,
    state: u32,
    slots: &[[u8; 4]],
    label: usize,
    budget: u32,
) -> Result<Store, Refusal> {
    let no_state = state as usize >= image.states.len();
    if no_state && !R::STORE_BEFORE_STATE {
        return Err(Refusal::new(17, 0));
    }
    let store = read(image, slots)?;
    if no_state {
        return Err(Refusal::new(17, 0));
    }
    if label < LABEL {
        return Err(Refusal::new(19, 0));
    }
    if budget > limits::BUDGET {
        return Err(Refusal::new(20, 0));
    }
    Ok(store)
}

/// One slot for each variable, undefined or of its type: else 13, or 18 at the lowest.
fn read(image: &Image, slots: &[[u8; 4]]) -> Result<Store, Refusal> {
    if slots.len() != image.variables.len() {
        return Err(Refusal::new(13, 0));
    }
    let mut store = [UNDEFINED; 64];
    for (v, (own, slot)) in store.iter_mut().zip(slots).enumerate() {
        *own = i32::from_le_bytes(*slot);
        if *own != UNDEFINED && !has(image, image.type_of(v as u16), *own) {
            return Err(Refusal::new(18, v));
        }
    }
    Ok(store)
}

fn write(words: &mut [[u8; 4]], values: &[i32]) {
    for (word, value) in words.iter_mut().zip(values) {
        *word = value.to_le_bytes();
    }
}

/// Ten words, zeros after the values; later ones stay.
fn write_label<R: Reading>(words: &mut [[u8; 4]], label: &Label) {
    let used = if R::OLD_LABEL_SHOWS { 2 + label[1] as usize } else { LABEL };
    write(words, &label[..used]);
}
