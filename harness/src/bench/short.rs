//! Short steps in large images: what 1–9 cost is part of each step.

use super::checks::accepted;
use super::steps::Subject;
use crate::differ::{word, Learner};
use crate::generate::Lean;
use crate::image::Image;
use crate::random::Random;
use crate::reading::Document01;
use crate::step::{range, step_on};
use crate::valid::Rows;
use std::ops::RangeInclusive;

/// Units of a step that counts as short.
const SHORT: RangeInclusive<u32> = 3..=12;

/// A short step in accepted images of these rows.
pub fn subjects() -> Vec<Subject> {
    [128, 512, 2048].map(|rows| subject(accepted(rows, 24, Lean::Sequences))).into()
}

/// The first short move that random states, stores and scripts find.
fn subject(bytes: Vec<u8>) -> Subject {
    let mut rows = Rows::default();
    let Ok(image) = rows.judge::<Document01>(&bytes, &mut ()) else {
        panic!("an accepted image is valid");
    };
    let random = &mut Random::new(3, 0);
    for _ in 0..100_000 {
        let state = random.below(image.states.len()) as u32;
        let store = draw(&image, random);
        let mut script = Vec::new();
        let words = Learner { random, script: &mut script, wrong: usize::MAX };
        let (slots, label) = (&mut store.clone(), &mut [0; 40]);
        let judged = (&image, &rows);
        let (run, units) = step_on::<Document01>(judged, state, slots, words, *SHORT.end(), label);
        if run.is_ok() && SHORT.contains(&units) {
            return Subject::new("short step", bytes, state, store, script);
        }
    }
    panic!("no state moves within {SHORT:?} units");
}

/// A store of values of the variables' types.
fn draw(image: &Image, random: &mut Random) -> Vec<u8> {
    let mut slot = |v: usize| {
        let (low, high) = range(image, image.type_of(v as u16));
        word(random, low, high).to_le_bytes()
    };
    (0..image.variables.len()).flat_map(&mut slot).collect()
}
