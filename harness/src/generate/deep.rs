//! Nests to a depth of 2,000 around a small automaton.

use super::maker::Maker;
use crate::image::{limits, NONE};

impl Maker {
    /// Wraps a state's action or the condition until there are about `rows`.
    pub fn deepen(&mut self, rows: usize) {
        let rows = rows.min(*limits::ROWS.end());
        let state = self.random.below(self.draft.states.len());
        match self.random.below(8) {
            0 => self.deepen_condition(rows),
            1 => self.deepen_action(rows, state, 2, |m, a| m.in_select(a)),
            2 => self.deepen_action(rows, state, 2, |m, a| m.in_sequence(a, false)),
            3 => self.deepen_action(rows, state, 2, |m, a| m.in_sequence(a, true)),
            4 => self.deepen_action(rows, state, 2, |m, a| m.in_while(a)),
            5 => self.deepen_action(rows, state, 4, |m, a| m.in_case(a)),
            6 => self.deep_pattern(rows, state),
            _ => self.deepen_action(rows, state, 4, |m, a| match m.random.below(4) {
                0 => m.in_case(a),
                1 => m.in_sequence(a, true),
                2 => m.in_while(a),
                _ => m.in_select(a),
            }),
        }
    }

    fn deepen_condition(&mut self, rows: usize) {
        while self.draft.rows.len() < rows {
            self.draft.condition = self.push(16, self.draft.condition, 0, 0);
        }
    }

    fn deepen_action(
        &mut self,
        rows: usize,
        state: usize,
        each: usize,
        wrap: impl Fn(&mut Maker, u16) -> u16,
    ) {
        while self.draft.rows.len() + each <= rows {
            self.draft.states[state] = wrap(self, self.draft.states[state]);
        }
    }

    fn in_select(&mut self, action: u16) -> u16 {
        let branch = self.push(57, action, NONE, 0);
        self.push(55, branch, 0, 0)
    }

    fn in_sequence(&mut self, action: u16, last: bool) -> u16 {
        let null = self.push(48, 0, 0, 0);
        match last {
            true => self.push(54, null, action, 0),
            false => self.push(54, action, null, 0),
        }
    }

    fn in_while(&mut self, action: u16) -> u16 {
        let condition = self.push(2, 0, 1, 0);
        self.push(59, condition, action, 0)
    }

    fn in_case(&mut self, action: u16) -> u16 {
        let subject = self.push(2, 0, 0, 0);
        let pattern = self.push(32, 0, 0, 0);
        let arm = self.push(58, pattern, action, NONE);
        self.push(56, subject, arm, 0)
    }

    /// A case whose pattern has guards around guards, before the state's action.
    fn deep_pattern(&mut self, rows: usize, state: usize) {
        let mut pattern = self.push(32, 0, 0, 0);
        while self.draft.rows.len() + 7 <= rows {
            let truth = self.push(2, 0, 1, 0);
            pattern = self.push(35, pattern, truth, 0);
        }
        let null = self.push(48, 0, 0, 0);
        let arm = self.push(58, pattern, null, NONE);
        let subject = self.push(2, 0, 0, 0);
        let case = self.push(56, subject, arm, 0);
        self.draft.states[state] = self.push(54, case, self.draft.states[state], 0);
    }
}
