//! Random stores, parameters, scripts, budgets and labels, mostly right.

use super::buffers::Buffers;
use crate::image::{limits, Image};
use crate::random::Random;
use crate::reading::Document01;
use crate::step::{range, step_on, Words, LABEL, UNDEFINED};

/// Units that a run to learn a script from may take.
const LEARNING: u32 = 300;
/// Bytes of a script learned at most.
const LONGEST: usize = 4 * 400;

/// A word in `low..=high`: small ones and edges more often.
pub fn word(random: &mut Random, low: i32, high: i32) -> i32 {
    let any = low + random.below((high - low) as usize + 1) as i32;
    match random.below(8) {
        0 => low,
        1 => high,
        2..=5 => (random.below(9) as i32 - 2).clamp(low, high),
        _ => any,
    }
}

/// A word that no type's value is, or just beside the range.
fn wrong_word(random: &mut Random, low: i32, high: i32) -> i32 {
    random.pick(&[low - 1, high + 1, high + 1, -1, UNDEFINED, i32::MIN, i32::MAX, high + 65_536])
}

fn put(bytes: &mut Vec<u8>, word: i32) {
    bytes.extend_from_slice(&word.to_le_bytes());
}

/// Up to three bytes of a part word, now and then.
fn part_word(bytes: &mut Vec<u8>, random: &mut Random) {
    if random.one_in(4) {
        let length = bytes.len();
        bytes.resize(length + random.within(1, 3), random.word() as u8);
    }
}

/// Words made up as they are asked for, mostly valid, and kept as a script.
pub struct Learner<'a> {
    pub random: &'a mut Random,
    pub script: &'a mut Vec<u8>,
    /// One word in so many is wrong.
    pub wrong: usize,
}

impl Words for Learner<'_> {
    fn next(&mut self, bounds: impl FnOnce() -> (i32, i32)) -> Option<i32> {
        if self.script.len() >= LONGEST {
            return None;
        }
        let (low, high) = bounds();
        let made = match self.random.one_in(self.wrong) {
            true => wrong_word(self.random, low, high),
            false => word(self.random, low, high),
        };
        put(self.script, made);
        Some(made)
    }
}

/// How a learning run went: units charged, and whether they were enough.
#[derive(Clone, Copy)]
pub struct Learned {
    units: u32,
    ended: bool,
}

impl Buffers {
    /// A store: undefined slots, now and then one out of its type or a wrong length.
    pub fn draw_store(&mut self, image: Option<&Image>, random: &mut Random) {
        self.store.clear();
        let undefined = random.pick(&[0, 0, 8, 2]);
        let kinds = image.map_or(0, |image| image.variables.len());
        for v in 0..kinds {
            let (low, high) = image.map_or((0, 0), |image| range(image, image.type_of(v as u16)));
            let gone = undefined != 0 && random.one_in(undefined);
            let slot = if gone { UNDEFINED } else { word(random, low, high) };
            put(&mut self.store, slot);
        }
        match random.below(24) {
            0 if kinds > 0 => self.spoil_slot(random, kinds),
            1 => put(&mut self.store, 0),
            2 => self.store.truncate(self.store.len().saturating_sub(4)),
            _ => {}
        }
        part_word(&mut self.store, random);
    }

    fn spoil_slot(&mut self, random: &mut Random, slots: usize) {
        let at = 4 * random.below(slots);
        let wrong = random.pick(&[-1, 40_000, 65_537, -32_769, 32_768, 4096, i32::MIN, 2]);
        self.store[at..at + 4].copy_from_slice(&wrong.to_le_bytes());
    }

    /// Parameters of their types, now and then a wrong value or number of them.
    pub fn draw_params(&mut self, image: Option<&Image>, random: &mut Random, right: bool) {
        self.params.clear();
        let mut left = image.map_or(0, |image| image.parameters);
        while let (Some(image), true) = (image, left != 0) {
            let kind = image.type_of(left.trailing_zeros() as u16);
            left &= left - 1;
            let (low, high) = range(image, kind);
            let spoiled = !right && random.one_in(40);
            let made =
                if spoiled { wrong_word(random, low, high) } else { word(random, low, high) };
            put(&mut self.params, made);
        }
        match random.below(24) {
            0 if !right => put(&mut self.params, 1),
            1 if !right => self.params.truncate(self.params.len().saturating_sub(4)),
            _ => {}
        }
        part_word(&mut self.params, random);
    }

    /// A store for start to overwrite: what it holds doesn't matter.
    pub fn draw_old_store(&mut self, image: Option<&Image>, random: &mut Random, right: bool) {
        let slots = image.map_or_else(|| random.below(5), |image| image.variables.len());
        let length = match random.below(24) {
            0 if !right => 4 * slots + 4,
            1 if !right => (4 * slots).saturating_sub(random.within(1, 4)),
            2..=5 => 4 * slots + random.below(4),
            _ => 4 * slots,
        };
        self.store.resize(length, 0);
        random.fill(&mut self.store);
    }

    /// Exactly ten words, more, a part word too many or too few, with old content.
    pub fn draw_label(&mut self, random: &mut Random, right: bool) {
        let length = match random.below(16) {
            0 if !right => random.below(4 * LABEL),
            1 if !right => 4 * LABEL - 1,
            2..=5 => 4 * LABEL + random.below(20),
            _ => 4 * LABEL,
        };
        self.label.resize(length, 0);
        random.fill(&mut self.label);
    }

    /// A state that exists, or one of those that nearly do.
    pub fn draw_state(&mut self, image: Option<&Image>, random: &mut Random) {
        let states = image.map_or(1, |image| image.states.len());
        let right = random.below(states) as u32;
        self.state = match random.below(40) {
            0 => states as u32,
            1 => random.pick(&[right + 65_536, right + 256, 65_535, u32::MAX, 64]),
            _ => right,
        };
    }

    /// A script by running the Rust step on made-up words; and how that run went.
    pub fn learn(&mut self, image: Option<&Image>, random: &mut Random, wrong: usize) -> Learned {
        self.script.clear();
        let Some(image) = image else {
            return Learned { units: 0, ended: false };
        };
        let mut store = [0; 4 * 64];
        let length = self.store.len().min(store.len()) & !3;
        store[..length].copy_from_slice(&self.store[..length]);
        let words = Learner { random, script: &mut self.script, wrong };
        let (store, label) = (&mut store[..length], &mut [0; 4 * LABEL]);
        let judged = (image, &self.judged);
        let (run, units) = step_on::<Document01>(judged, self.state, store, words, LEARNING, label);
        Learned { units, ended: run.map_or_else(|refusal| refusal.number != 25, |_| true) }
    }

    /// The learned script cut, longer than needed, or with a word spoiled.
    pub fn bend_script(&mut self, random: &mut Random) {
        let words = self.script.len() / 4;
        match random.below(16) {
            0 | 1 if words > 0 => self.script.truncate(4 * random.below(words)),
            2 | 3 => {
                let length = self.script.len();
                self.script.resize(length + random.within(1, 20), random.word() as u8);
            }
            4 if words > 0 => {
                let at = 4 * random.below(words);
                let wrong = wrong_word(random, 0, 64).to_le_bytes();
                self.script[at..at + 4].copy_from_slice(&wrong);
            }
            _ => {}
        }
        part_word(&mut self.script, random);
    }

    /// A budget around what the learning run took; endless ones rarely get much.
    pub fn draw_budget(&mut self, learned: Learned, random: &mut Random, right: bool) {
        let Learned { units, ended } = learned;
        self.budget = match random.below(16) {
            0 if !right => random.below(11) as u32,
            1 | 2 if !right => units.saturating_sub(1),
            3 if !right && random.one_in(3) => limits::BUDGET + 1 + random.word() as u32 / 2,
            4..=6 => units,
            7..=9 if ended => random.within(LEARNING as usize, limits::BUDGET as usize) as u32,
            10 | 11 if ended => limits::BUDGET,
            12 if random.one_in(300) => limits::BUDGET,
            _ => LEARNING,
        };
    }
}
