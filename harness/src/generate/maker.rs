//! Makes automata that keep the rules of 01, except where the plan slips.

use super::plan::{Plan, Slip};
use crate::image::{Draft, Row, NONE};
use crate::random::Random;

/// What is known where the next action begins.
#[derive(Clone, Copy)]
pub struct Flow {
    /// Variables surely defined, at least.
    pub set: u64,
    pub quiet: bool,
    pub spoken: bool,
    /// Something follows that should be reached.
    pub stay: bool,
}

impl Flow {
    pub fn is_live(self) -> bool {
        self.quiet || self.spoken
    }

    pub fn with(self, variables: u64) -> Flow {
        Flow { set: self.set | variables, ..self }
    }

    /// What holds after either of two ends.
    pub fn join(self, other: Flow) -> Flow {
        Flow {
            set: self.set & other.set,
            quiet: self.quiet | other.quiet,
            spoken: self.spoken | other.spoken,
            stay: self.stay,
        }
    }
}

pub struct Maker {
    pub random: Random,
    pub draft: Draft,
    pub plan: Plan,
    /// Slips still to be made.
    pub slips: usize,
    /// Whether one was made.
    pub slipped: bool,
    /// Per type, its variables.
    pub of_type: [u64; 17],
    pub all: u64,
    pub parameters: u64,
    /// Per state, variables that every jump to it brings.
    pub needs: [u64; 64],
    /// The state whose action is being made.
    pub state: usize,
    /// Variables of the fors around.
    pub fors: u64,
    /// Loops around.
    pub loops: usize,
    /// Variables read since this was last emptied.
    pub used: u64,
    /// Lists under way.
    pub lists: Vec<[u16; 3]>,
}

impl Maker {
    pub fn new(random: Random, plan: Plan) -> Maker {
        Maker {
            random,
            draft: Draft::default(),
            plan,
            slips: 0,
            slipped: false,
            of_type: [0; 17],
            all: 0,
            parameters: 0,
            needs: [0; 64],
            state: 0,
            fors: 0,
            loops: 0,
            used: 0,
            lists: Vec::new(),
        }
    }

    /// The automaton of a plan, in `self.draft`.
    pub fn make(&mut self, random: Random, plan: Plan) {
        self.random = random;
        self.plan = plan;
        self.slips = match plan.slips {
            [None, None] => 0,
            _ => self.random.within(1, 4),
        };
        self.slipped = false;
        self.fors = 0;
        self.loops = 0;
        self.lists.clear();
        self.draft.clear();
        self.tables();
        self.condition();
        let each = (plan.rows.saturating_sub(self.draft.rows.len()) / plan.states).max(1);
        for state in 0..plan.states {
            let budget = self.random.within(each / 2, each + each / 3).max(1);
            let row = self.state(state, budget);
            self.draft.states.push(row);
        }
    }

    pub fn push(&mut self, code: u16, a: u16, b: u16, c: u16) -> u16 {
        self.draft.rows.push(Row::new(code, a, b, c));
        (self.draft.rows.len() - 1) as u16
    }

    /// Whether to break this rule here.
    pub fn slip(&mut self, slip: Slip) -> bool {
        let now = self.slips > 0 && self.plan.slips.contains(&Some(slip)) && !self.random.one_in(3);
        self.slips -= usize::from(now);
        self.slipped |= now;
        now
    }

    pub fn any_type(&mut self) -> u16 {
        self.random.below(self.plan.types) as u16
    }

    /// Another type than this one.
    pub fn other_type(&mut self, kind: u16) -> u16 {
        let turn = self.random.within(1, self.plan.types - 1);
        ((usize::from(kind) + turn) % self.plan.types) as u16
    }

    /// A list's rows from the last to the first; `base` is where it begins.
    pub fn link(&mut self, base: usize, row: impl Fn([u16; 3], u16) -> Row) -> u16 {
        let mut next = NONE;
        while self.lists.len() > base {
            let parts = self.lists.pop().unwrap_or_default();
            let Row { code, a, b, c } = row(parts, next);
            next = self.push(code, a, b, c);
        }
        next
    }

    fn tables(&mut self) {
        self.draft.types.extend([2, 0]);
        for _ in 2..self.plan.types {
            let values = match self.random.below(12) {
                0 => 4096,
                1 => self.random.within(60, 66),
                2 => 1,
                _ => self.random.within(1, 6),
            };
            self.draft.types.push(values as u16);
        }
        self.of_type = [0; 17];
        self.parameters = 0;
        for v in 0..self.plan.variables {
            let kind = if self.random.one_in(2) { 1 } else { self.any_type() };
            let parameter = self.random.one_in(3);
            self.draft.variables.push((kind, u16::from(parameter)));
            self.of_type[usize::from(kind)] |= 1 << v;
            self.parameters |= u64::from(parameter) << v;
        }
        self.all = self.of_type.iter().fold(0, |all, mask| all | mask);
        self.draft.gates = self.plan.gates as u16;
        self.set_needs();
    }

    /// State 0 starts with parameters only; others get a few variables.
    fn set_needs(&mut self) {
        self.needs[0] = self.parameters & self.random.word();
        for state in 1..self.plan.states {
            let kept = if self.random.one_in(2) { self.parameters } else { 0 };
            let mut more = 0;
            for _ in 0..self.random.below(4) {
                more |= self.random.bit(self.all).map_or(0, |v| 1 << v);
            }
            self.needs[state] = kept | more;
        }
    }

    fn condition(&mut self) {
        let size = if self.random.one_in(3) { self.random.below(8) } else { 1 };
        let wrong = self.slip(Slip::ConditionVariable);
        let set = if wrong { self.all & !self.parameters } else { self.parameters };
        self.draft.condition = self.expression(0, if wrong { 8 } else { size }, set);
    }

    /// A state's action: it never ends spoken, and mostly jumps.
    fn state(&mut self, state: usize, budget: usize) -> u16 {
        self.state = state;
        let set = self.needs[state];
        let flow = Flow { set, quiet: true, spoken: false, stay: false };
        let (row, end) = self.action(budget, flow);
        let jumps = match end.spoken {
            true => !self.slip(Slip::SpokenEnd),
            false => end.quiet && !self.random.one_in(4),
        };
        match jumps {
            true => self.then_jump(row, end),
            false => row,
        }
    }

    /// The action with a jump after it.
    pub fn then_jump(&mut self, row: u16, end: Flow) -> u16 {
        let jump = self.jump(end);
        self.push(54, row, jump, 0)
    }

    /// A jump, after what its target needs.
    pub fn jump(&mut self, flow: Flow) -> u16 {
        let unset = self.slips > 0 && self.plan.slips.contains(&Some(Slip::JumpUnset));
        let mut target = self.target();
        let tries = if unset { 0 } else { 3 };
        for _ in 0..tries {
            if self.needs[target] & !flow.set != 0 {
                target = self.target();
            }
        }
        let mut missing = self.needs[target] & !flow.set & !self.fors;
        if missing != 0 && self.slip(Slip::JumpUnset) {
            missing = 0;
        }
        let jump = self.push(53, target as u16, 0, 0);
        self.assign_then(missing, flow.set, jump)
    }

    /// A state to jump to: often the next one, so that most states are reached.
    fn target(&mut self) -> usize {
        match self.random.one_in(2) {
            true => (self.state + 1) % self.plan.states,
            false => self.random.below(self.plan.states),
        }
    }

    /// Assignments of all these variables, then an action.
    pub fn assign_then(&mut self, variables: u64, set: u64, then: u16) -> u16 {
        let (mut left, mut row) = (variables, then);
        while left != 0 {
            let base = self.lists.len();
            for _ in 0..self.random.within(1, 8) {
                let Some(v) = self.random.bit(left) else {
                    break;
                };
                left &= !(1 << v);
                let kind = self.draft.variables[usize::from(v)].0;
                let value = self.expression(kind, 1, set);
                self.lists.push([v, value, 0]);
            }
            let first = self.link(base, |[v, value, _], next| Row::new(44, v, value, next));
            let assign = self.push(49, first, 0, 0);
            row = self.push(54, assign, row, 0);
        }
        row
    }
}
