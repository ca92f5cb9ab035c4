//! Start and step of one side, so that two sides can be compared and measured.

use crate::step;

/// Image, parameters, store.
pub type Start = fn(&[u8], &[u8], &mut [u8]) -> u64;
/// Image, state, store, script, budget, label.
pub type Step = fn(&[u8], u32, &mut [u8], &[u8], u32, &mut [u8]) -> u64;

/// One side's start and step, with the exports' meaning.
#[derive(Clone, Copy)]
pub struct Calls {
    pub start: Start,
    pub step: Step,
}

/// The implementation of this package.
pub const RUST: Calls = Calls { start: step::start, step: step::step };

/// The library's, if it is linked with them (feature `step`).
#[cfg(feature = "step")]
pub const LIBRARY: Option<Calls> =
    Some(Calls { start: crate::library::start, step: crate::library::step });
#[cfg(not(feature = "step"))]
pub const LIBRARY: Option<Calls> = None;
