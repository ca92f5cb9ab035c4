//! States in one ring, each of which loses variables: the sets settle slowly.

use super::maker::Maker;
use crate::image::NONE;
use crate::random::Random;

impl Maker {
    /// A ring of states over 64 variables; from high to low numbers if `falling`,
    /// else in any order. With `wrong`, some state reads what may be lost.
    pub fn ring(&mut self, random: Random, states: usize, falling: bool, wrong: bool) {
        self.random = random;
        self.draft.clear();
        self.draft.types.extend([2, 0]);
        let parameter = if self.random.one_in(4) { 0 } else { 1 };
        self.draft.variables.extend([(1, parameter); 64]);
        self.draft.variables[0].1 = 1;
        self.draft.gates = 1;
        self.draft.condition = self.push(2, 0, 1, 0);
        let mut order: Vec<u16> = (0..states as u16).rev().collect();
        if !falling {
            (1..states).for_each(|last| order.swap(last, self.random.below(last + 1)));
        }
        let mut next = [0; 64];
        for (i, &state) in order.iter().enumerate() {
            next[usize::from(state)] = order[(i + 1) % states];
        }
        for (state, &target) in next[..states].iter().enumerate() {
            let row = self.ring_state(state as u16, target, wrong);
            self.draft.states.push(row);
        }
    }

    /// Loses the variable of the state's number, except 0, and may set or read others.
    fn ring_state(&mut self, state: u16, target: u16, wrong: bool) -> u16 {
        let mut row = self.push(53, target, 0, 0);
        if self.random.one_in(8) {
            let lower = self.random.below(usize::from(state) + 1) as u16;
            let back = self.push(53, lower, 0, 0);
            let branch = self.push(57, back, NONE, 0);
            let first = self.push(57, row, branch, 0);
            row = self.push(55, first, 0, 0);
        }
        if self.random.one_in(2) {
            let read = if wrong && self.random.one_in(8) { self.random.below(64) } else { 0 };
            let value = self.push(1, read as u16, 0, 0);
            let set = self.random.below(64) as u16;
            let item = self.push(44, set, value, NONE);
            let assign = self.push(49, item, 0, 0);
            row = self.push(54, assign, row, 0);
        }
        if state != 0 && !self.random.one_in(4) {
            let item = self.push(46, state, NONE, 0);
            let reset = self.push(51, item, 0, 0);
            row = self.push(54, reset, row, 0);
        }
        row
    }
}
